#lang racket
(require redex)
; Truth values with `or`, reduced at the top and anywhere. Two of the tests fail.
(define-language Bool
  (B true false (or B B)))
(define r
  (reduction-relation Bool
    (--> (or true B) true or-true)
    (--> (or false B) B or-false)))
(define anywhere (compatible-closure r Bool B))

(test--> r (term (or true (or false true))) (term true))
(test-->> r (term (or false (or false false))) (term false))

; Two places to reduce at, so two reducts; their order does not matter.
(test--> anywhere
         (term (or (or false true) (or false true)))
         (term (or true (or false true)))
         (term (or (or false true) true)))

; A run wants one reduct at each step.
(test-->> anywhere (term (or (or false true) (or false true))) (term true))

; What was found, and what was wanted.
(test--> anywhere (term (or false (or true false))) (term true))

(test-match Bool (or true B) (term (or true false)))
(test-no-match Bool B (term (or true)))
(test-results)
