; A name with a suffix begins with a nonterminal or a built-in pattern: foo is neither.
(define-language L (e number))
(redex-match L (e_1 foo_1) (term (1 2)))
