#lang racket
(require redex)
; Mismatch names, as `x_!_`: all terms under one of them differ. So no function here has a parameter twice.
(define-language Lambda
  (e x number (λ (x_!_ ...) e) (e e ...))
  (x variable-not-otherwise-mentioned))
(redex-match? Lambda e (term (λ (a b) (a b))))
(redex-match? Lambda e (term (λ (a a) a)))

; They differ in lists of lists too, one list from the other. A mismatch name binds nothing.
(redex-match Lambda ((λ (x_!_ ...) e) ...) (term ((λ (a b) a) (λ (c) 1))))
(redex-match Lambda ((λ (x_!_ ...) e) ...) (term ((λ (a b) a) (λ (b) 1))))

; The name x beside it is another. Which parameter may be left out, so that the others differ?
(redex-match Lambda (λ (x_!_ ... x x_!_ ...) e) (term (λ (a b a) 1)))

; Clauses that tell whether parameters differ, and which one does not.
(define-metafunction Lambda
  parameters : any -> any
  [(parameters (λ (x_!_ ...) e)) different]
  [(parameters (λ (_ ... x _ ... x _ ...) e)) (twice x)])
(test-equal (term (parameters (λ (a b c) 1))) (term different))
(test-equal (term (parameters (λ (a b a) 1))) (term (twice a)))
(test-results)
