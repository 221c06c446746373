#lang racket
; Truth values and conditionals. The values are those terms with which an evaluation ends.
(define-language Booleans
  (t true false (if t t t))
  (v true false))

; Every value is a term, and not the other way.
(redex-match? Booleans t (term (if true false true)))
(redex-match? Booleans v (term true))
(redex-match? Booleans v (term (if true false true)))

; The left sides of three rules of evaluation. A conditional whose test is true:
(redex-match Booleans (if true t_then t_else) (term (if true (if false true false) false)))

; A conditional whose test is some value:
(redex-match Booleans (if v t_then t_else) (term (if false true false)))

; Here the test is no value yet, so the rule isn't for this term.
(redex-match Booleans (if v t_then t_else) (term (if (if true true true) true false)))

; A nonterminal binds its own name, and nothing that stands in its alternatives.
(redex-match Booleans t (term (if true false true)))
