#lang racket
(require redex)

;; Numbers, sums and let.
(define-language Let
  (e n x (+ e e) (let (x e) e))
  (n number)
  (v n)
  (x variable-not-otherwise-mentioned)
  (E hole (+ E e) (+ v E) (let (x E) e)))

(define-metafunction Let
  [(subst x v x) v]
  [(subst x_1 v x_2) x_2]
  [(subst x v n) n]
  [(subst x v (+ e_1 e_2)) (+ (subst x v e_1) (subst x v e_2))]
  [(subst x v (let (x e_1) e_2)) (let (x (subst x v e_1)) e_2)]
  [(subst x_1 v (let (x_2 e_1) e_2)) (let (x_2 (subst x_1 v e_1)) (subst x_1 v e_2))])

;; Each case is written for a redex alone, and the arrow ==> says where a redex may stand.
(define red
  (reduction-relation Let
    (==> (+ n_1 n_2) ,(+ (term n_1) (term n_2)) add)
    (==> (let (x v) e) (subst x v e) let)
    with
    [(--> (in-hole E a) (in-hole E b)) (==> a b)]))

(apply-reduction-relation/tag-with-names red (term (+ (+ 1 2) (+ 3 4))))
(apply-reduction-relation/tag-with-names red (term (let (y (+ 1 2)) (+ y y))))
(apply-reduction-relation/tag-with-names red (term (let (y 3) (+ y y))))
(apply-reduction-relation/tag-with-names red (term (let (y 1) (let (y (+ y 1)) (+ y 10)))))

;; The same steps, counted: a step of ==> is one of ~> in a context, and that one of --> beside a count.
(define counted
  (reduction-relation Let
    (==> (+ n_1 n_2) ,(+ (term n_1) (term n_2)) add)
    (==> (let (x v) e) (subst x v e) let)
    (--> (count n_0 v) v done)
    with
    [(--> (count n_0 a) (count ,(+ (term n_0) 1) b)) (~> a b)]
    [(~> (in-hole E a) (in-hole E b)) (==> a b)]))

(apply-reduction-relation/tag-with-names counted (term (count 0 (+ (+ 1 2) 3))))
(apply-reduction-relation/tag-with-names counted (term (count 2 6)))
