#lang racket
(require redex)
; A language of functions and numbers, call by value, with its tests.
(define-language Iswim
  (e x (lambda (x) e) (e e) number (o e e))
  (o + *)
  (v number (lambda (x) e))
  (x variable-not-otherwise-mentioned)
  (E hole (E e) (v E) (o E e) (o v E)))

(define-metafunction Iswim
  subst : e x v -> e
  [(subst x x v) v]
  [(subst (lambda (x) e) x v) (lambda (x) e)]
  [(subst (lambda (x_1) e) x_2 v) (lambda (x_1) (subst e x_2 v))]
  [(subst (e_1 e_2) x v) ((subst e_1 x v) (subst e_2 x v))]
  [(subst (o e_1 e_2) x v) (o (subst e_1 x v) (subst e_2 x v))]
  [(subst e x v) e])

(define red
  (reduction-relation Iswim
    (--> (in-hole E ((lambda (x) e) v)) (in-hole E (subst e x v)) beta)
    (--> (in-hole E (+ number_1 number_2)) (in-hole E ,(+ (term number_1) (term number_2))) plus)
    (--> (in-hole E (* number_1 number_2)) (in-hole E ,(* (term number_1) (term number_2))) times)))

; The inner function has a parameter of the same name, so its body stays.
(test-equal (term (subst (+ y (lambda (y) y)) y 3)) (term (+ 3 (lambda (y) y))))

; One step: the argument is a value before the function is applied.
(test--> red (term ((lambda (x) (* x x)) (+ 1 2))) (term ((lambda (x) (* x x)) 3)))

; All steps.
(test-->> red (term ((lambda (x) (* x x)) (+ 1 2))) (term 9))
(test-->> red (term (((lambda (f) (lambda (x) (f (f x)))) (lambda (y) (+ y 2))) 5)) (term 9))

; A function is a value, and nothing in it is reduced.
(test-->> red (term (lambda (x) (+ 1 2))) (term (lambda (x) (+ 1 2))))

(test-results)
