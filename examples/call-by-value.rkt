#lang racket
; Call by value, as evaluation contexts tell it: the function first, then its argument, and nothing inside a lambda.
(define-language CBV
  (e x v (e e))
  (v (lambda (x) e) number)
  (x variable-not-otherwise-mentioned)
  (E hole (E e) (v E)))

; All ways to split a term into an evaluation context and what stands in its hole.
(redex-decompose CBV E (term (((lambda (x) x) 1) 2)))

; One of them has a redex in its hole: this is the next step.
(redex-match CBV (in-hole E ((lambda (x) e) v)) (term (((lambda (x) x) 1) 2)))

; There are two redexes in this term, but only the left one stands in an evaluation context. Decomposition is unique.
(redex-match CBV (in-hole E ((lambda (x) e) v))
  (term (((lambda (x) x) (lambda (y) y)) ((lambda (z) z) 1))))

; Once the function is a value, its argument has its turn.
(redex-match CBV (in-hole E ((lambda (x) e) v)) (term ((lambda (y) y) ((lambda (z) z) 1))))

; A value has no redex, whatever stands inside it, and neither has a term that is stuck.
(redex-match? CBV (in-hole E ((lambda (x) e) v)) (term (lambda (x) ((lambda (y) y) 1))))
(redex-match? CBV (in-hole E ((lambda (x) e) v)) (term (1 2)))

; Where the argument need not wait for the function, decomposition is not unique: each answer is a step.
(define-extended-language AnyOrder CBV
  (E hole (E e) (e E)))
(redex-match AnyOrder (in-hole E ((lambda (x) e) v))
  (term (((lambda (x) x) (lambda (y) y)) ((lambda (z) z) 1))))
