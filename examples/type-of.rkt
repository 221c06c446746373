#lang racket
; The type of a term of the simply typed lambda calculus, as a metafunction: a term without a type is one that no clause takes.
(require redex)

(define-language Typed
  (e x n b (e e) (λ (x : t) e) (if e e e) (+ e e))
  (n number)
  (b boolean)
  (t num bool (t -> t))
  (x variable-not-otherwise-mentioned)
  (G ((x t) ...)))

(define-metafunction Typed
  look-up : G x -> t
  [(look-up ((x t) (x_1 t_1) ...) x) t]
  [(look-up ((x_1 t_1) (x_2 t_2) ...) x) (look-up ((x_2 t_2) ...) x)])

(define-metafunction Typed
  type-of : G e -> t
  [(type-of G n) num]
  [(type-of G b) bool]
  [(type-of G x) (look-up G x)]
  [(type-of G (+ e_1 e_2)) num
   (where num (type-of G e_1))
   (where num (type-of G e_2))]
  [(type-of G (if e_1 e_2 e_3)) t
   (where bool (type-of G e_1))
   (where t (type-of G e_2))
   (where t (type-of G e_3))]
  [(type-of ((x_1 t_1) ...) (λ (x : t) e)) (t -> (type-of ((x t) (x_1 t_1) ...) e))]
  [(type-of G (e_1 e_2)) t
   (where (t_1 -> t) (type-of G e_1))
   (where t_1 (type-of G e_2))])

(term (type-of () (λ (y : num) (+ y 1))))
(term (type-of () ((λ (f : (num -> bool)) (f 1)) (λ (y : num) #t))))
(term (type-of () (if #t 1 (+ 1 2))))

; The innermost of two variables of one name counts.
(term (type-of ((y bool)) (λ (y : num) y)))

; Both branches need one type, a variable has to be bound, and a boolean is not added.
(term (type-of () (if #t 1 #f)))
(term (type-of () y))
(term (type-of () (+ #t 1)))
