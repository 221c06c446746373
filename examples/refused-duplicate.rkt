; A nonterminal is defined once, with all its alternatives.
(define-language L
  (e number)
  (v string)
  (e string))
