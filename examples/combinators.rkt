#lang racket
(require redex)

;; Combinators: S, K and I, with free variables. The rules by themselves take a step at the root of a term alone.
(define-language SK
  (e S K I x (e e))
  (x variable-not-otherwise-mentioned)
  (E hole (E e)))

(define rules
  (reduction-relation SK
    (--> (I e_1) e_1 I)
    (--> ((K e_1) e_2) e_1 K)
    (--> (((S e_1) e_2) e_3) ((e_1 e_3) (e_2 e_3)) S)))

;; Their compatible closure steps anywhere in a term, and the closure by E at its head alone, which is a strategy.
(define anywhere (compatible-closure rules SK e))
(define at-head (context-closure rules SK E))

(apply-reduction-relation/tag-with-names rules (term ((K (I a)) (I b))))
(apply-reduction-relation/tag-with-names anywhere (term ((K (I a)) (I b))))
(apply-reduction-relation/tag-with-names at-head (term ((K (I a)) (I b))))

;; S K K is an identity.
(apply-reduction-relation/tag-with-names at-head (term (((S K) K) a)))
(apply-reduction-relation/tag-with-names at-head (term ((K a) (K a))))

;; The head of a term under a variable takes no step, though something after it does.
(apply-reduction-relation anywhere (term (((I a) (I b)) c)))
(apply-reduction-relation at-head (term (((I a) (I b)) c)))
(apply-reduction-relation anywhere (term (a (I b))))
(apply-reduction-relation at-head (term (a (I b))))
