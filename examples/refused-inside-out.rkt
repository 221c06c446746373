; Contexts that are built from the inside out. To find an E at a term, one would look for an E at the same term first, without end.
; From the outside in, as (E hole (E e)), they are the same contexts.
(define-language L
  (e number (e e))
  (E hole (in-hole E (hole e))))
(redex-decompose L E (term ((1 2) 3)))
