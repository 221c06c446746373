; A language is known after its form only.
(redex-match L e (term 1))
(define-language L (e number))
