; The name of a built-in pattern is no name for a nonterminal.
(define-language L
  (number 1 2))
