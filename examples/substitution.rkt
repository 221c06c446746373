#lang racket
; Substitution in the lambda calculus, as a metafunction that a rule calls: closed values stand for variables.
(require redex)

(define-language Λ
  (e x v (e e) (+ e e))
  (v number (λ (x) e))
  (x variable-not-otherwise-mentioned)
  (E hole (E e) (v E) (+ E e) (+ v E)))

(define-metafunction Λ
  subst : x v e -> e
  [(subst x v x) v]
  [(subst x v (λ (x) e)) (λ (x) e)]
  [(subst x_1 v (λ (x_2) e)) (λ (x_2) (subst x_1 v e))]
  [(subst x v (+ e_1 e_2)) (+ (subst x v e_1) (subst x v e_2))]
  [(subst x v (e_1 e_2)) ((subst x v e_1) (subst x v e_2))]
  [(subst x v e) e])

(define red
  (reduction-relation Λ
    (--> (in-hole E (+ number_1 number_2)) (in-hole E ,(+ (term number_1) (term number_2))) add)
    (--> (in-hole E ((λ (x) e) v)) (in-hole E (subst x v e)) beta)))

(term (subst y 1 (+ y (y z))))
(term (subst y 1 (λ (y) y)))
(term (subst y 1 (λ (z) (y z))))

(apply-reduction-relation/tag-with-names red (term ((λ (y) (+ y (+ 1 y))) 2)))
(apply-reduction-relation/tag-with-names red (term (+ 2 (+ 1 2))))
(apply-reduction-relation/tag-with-names red (term (+ 2 3)))
(apply-reduction-relation red (term 5))

; A call that the contract does not allow has no value.
(term (subst 1 2 3))
