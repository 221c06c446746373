; A name stands for a term, or for a sequence, but not for both: the second e_1 stands under no ellipsis.
(define-language L (e number))
(redex-match L ((e_1 ...) e_1) (term ((1 2) 3)))
