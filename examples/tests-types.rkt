#lang racket
(require redex)
; Simple types, with tests of the judgement that finds them. The last test fails: a number is no function.
(define-language Typed
  (e x number (lambda (x t) e) (e e) (+ e e))
  (t num (-> t t))
  (G empty (x t G))
  (x variable-not-otherwise-mentioned))

(define-judgment-form Typed
  #:mode (types I I O)
  #:contract (types G e t)
  [-------------------- number
   (types G number num)]
  [(finds G x t)
   ------------- variable
   (types G x t)]
  [(types (x t_1 G) e t_2)
   ----------------------------------------- function
   (types G (lambda (x t_1) e) (-> t_1 t_2))]
  [(types G e_1 (-> t_2 t))
   (types G e_2 t_2)
   --------------------- application
   (types G (e_1 e_2) t)]
  [(types G e_1 num)
   (types G e_2 num)
   ------------------------- sum
   (types G (+ e_1 e_2) num)])

; The first type of a variable counts.
(define-judgment-form Typed
  #:mode (finds I I O)
  [(finds (x t G) x t)]
  [(finds (x_1 t_1 G) x_2 t)
   (side-condition ,(not (equal? (term x_1) (term x_2))))
   (finds G x_2 t)])

(test-judgment-holds (types empty (lambda (y num) (+ y 1)) (-> num num)))
(test-judgment-holds (types empty ((lambda (y num) (+ y 1)) 2) num))
(test-judgment-holds (types (y num (y (-> num num) empty)) y num))
(judgment-holds (types empty (lambda (f (-> num num)) (lambda (y num) (f (f y)))) t) t)
(judgment-holds (types empty (lambda (y num) (y y)) t))
(test-judgment-holds (types empty (1 2) t))
(test-results)
