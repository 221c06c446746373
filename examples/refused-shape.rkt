; A definition needs an alternative.
(define-language L
  (e number)
  (v))
