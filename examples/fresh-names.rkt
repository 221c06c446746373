#lang racket
(require redex)

; The result of an application gets a name of its own, by a step to a let form. A fresh name is the first of t, t1, t2 and
; so on that stands nowhere in the whole term, so no name of the program is caught.
(define-language Names
  (e (let ((x e)) e) (e e) (λ (x) e) x number)
  (v (λ (x) e) x number)
  (E hole (E e) (v E))
  (x variable-not-otherwise-mentioned))

; One step names an application whose parts are values, where it stands first in evaluation order.
(define name-it
  (reduction-relation Names
    (--> (in-hole E (v_1 v_2))
         (let ((t (v_1 v_2))) (in-hole E t))
         (fresh t)
         "name")))

(redex-match? Names e (term (f (g 1))))

; The inner application is the first one.
(apply-reduction-relation/tag-with-names name-it (term (f (g 1))))

; The name t is taken, and so is t1.
(apply-reduction-relation/tag-with-names name-it (term (t (t1 1))))

; Two fresh names in one case are different.
(define swap
  (reduction-relation Names
    (--> (v_1 v_2)
         (let ((a v_1)) (let ((b v_2)) (b a)))
         (fresh a b))))
(apply-reduction-relation swap (term (a (λ (b) b))))
