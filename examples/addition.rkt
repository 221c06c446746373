#lang racket
; Addition of numbers in unary notation, step by step, from the left to the right.
(define-language Unary
  (n z (s n))
  (e z (s e) (+ e e))
  (E hole (s E) (+ E e) (+ n E)))

(define add
  (reduction-relation Unary
    (--> (in-hole E (+ z n)) (in-hole E n) zero)
    (--> (in-hole E (+ (s n_1) n_2)) (in-hole E (s (+ n_1 n_2))) successor)))

(apply-reduction-relation/tag-with-names add (term (+ (+ (s z) z) (s z))))
(apply-reduction-relation/tag-with-names add (term (+ (s (+ z z)) (s z))))
(apply-reduction-relation/tag-with-names add (term (+ (s z) (s z))))
(apply-reduction-relation/tag-with-names add (term (s (+ z (s z)))))

; A number takes no step.
(apply-reduction-relation add (term (s (s z))))
