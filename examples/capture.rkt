#lang racket
; Substitution that captures nothing: the lambda calculus by call by name, where a step makes a
; substitution, and further steps carry it out, with a fresh name for each function on the way.
; `substitute` does the same at once, by the binding forms of the language.
(define-language L
  (u x (λ (x) u) (u u))
  (e x (λ (x) e) (e e) (sub e x e))
  (E hole (E u))
  (S hole (S e) (u S) (λ (x) S) (sub S x e))
  (x variable-not-otherwise-mentioned)
  #:binding-forms
  (λ (x) e #:refers-to x))

(define by-name
  (reduction-relation L
    (--> (in-hole E ((λ (x) u_1) u_2)) (in-hole E (sub u_1 x u_2)) call)
    (--> (in-hole S (sub x x e)) (in-hole S e) here)
    (--> (in-hole S (sub x_1 x e)) (in-hole S x_1) (where (x_!_ x_!_) (x_1 x)) elsewhere)
    (--> (in-hole S (sub (u_1 u_2) x e)) (in-hole S ((sub u_1 x e) (sub u_2 x e))) both)
    (--> (in-hole S (sub (λ (x) u) x e)) (in-hole S (λ (x) u)) bound)
    (--> (in-hole S (sub (λ (x_1) u) x e)) (in-hole S (λ (z) (sub (sub u x_1 z) x e)))
         (where (x_!_ x_!_) (x_1 x)) (fresh z) under)))

; The y that is put for x is not the y of the function.
(test-->> by-name (term ((λ (x) (λ (y) (x y))) (y w))) (term (λ (z) ((y w) z))))
(substitute L (term (λ (y) (x y))) (term x) (term (y w)))
(alpha-equivalent? L (term (λ (z) ((y w) z))) (term (λ (y1) ((y w) y1))))

; A substitution that forgets this gives another function.
(alpha-equivalent? L (term (λ (y) ((y w) y))) (term (λ (y1) ((y w) y1))))

; Where the argument has a free z, another name is fresh.
(test-->> by-name (term ((λ (x) (λ (y) (x (λ (x) (y x))))) z)) (term (λ (z1) (z (λ (z3) (z1 z3))))))
(substitute L (term (λ (y) (x (λ (x) (y x))))) (term x) (term z))
(alpha-equivalent? L (term (λ (z1) (z (λ (z3) (z1 z3))))) (term (λ (y) (z (λ (x) (y x))))))

; An argument is put in as it is, and evaluated where it is called.
(test-->> by-name (term ((λ (x) (λ (y) y)) ((λ (x) (x x)) (λ (x) (x x))))) (term (λ (z) z)))
