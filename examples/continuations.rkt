#lang racket
(require redex)
; Contexts as parts of a program. A machine keeps the context of what it works on beside it, and a continuation is a value
; that holds a context. The hole in a continuation is not the place where the program goes on, so `hide-hole` stands there.
(define-language Control
  (e x v a)
  (v number (λ (x) e) (cont (hide-hole E)))
  (a (e e) (+ e e) (callcc e))
  (x variable-not-otherwise-mentioned)
  (E hole (E e) (v E) (+ E e) (+ v E) (callcc E))
  (F (hole e) (v hole) (+ hole e) (+ v hole) (callcc hole)))

(define-metafunction Control
  subst : any x v -> any
  [(subst x x v) v]
  [(subst (λ (x) e) x v) (λ (x) e)]
  [(subst (cont E) x v) (cont E)]
  [(subst (any ...) x v) ((subst any x v) ...)]
  [(subst any x v) any])

(define standard
  (reduction-relation Control
    (--> (in-hole E ((λ (x) e) v)) (in-hole E (subst e x v)) beta)
    (--> (in-hole E (+ number_1 number_2)) (in-hole E ,(+ (term number_1) (term number_2))) add)
    (--> (in-hole E (callcc v)) (in-hole E (v (cont E))) capture)
    (--> (in-hole E_1 ((cont E_2) v)) (in-hole E_2 v) resume)))

; The machine goes into a term and out of it frame by frame, and leaves the rest alone.
(define machine
  (reduction-relation Control
    (--> (state (in-hole F a) E) (state a (in-hole E F)) push)
    (--> (state v (in-hole E F)) (state (in-hole F v) E) pop)
    (--> (state ((λ (x) e) v) E) (state (subst e x v) E) beta)
    (--> (state (+ number_1 number_2) E) (state ,(+ (term number_1) (term number_2)) E) add)
    (--> (state (callcc v) E) (state (v (cont E)) E) capture)
    (--> (state ((cont E_1) v) E_2) (state v E_1) resume)))

; The program goes on at the hole of its own context, whatever holes stand beside it. Where there are several, the path
; tells which one it is.
(redex-decompose Control E (term (+ 1 ((cont (+ 2 hole)) 3))))
(redex-match Control (in-hole E_1 ((cont E_2) v)) (term (+ 1 ((cont (+ 2 hole)) 3))))

; Step by step: the sum with 10 is given up.
(apply-reduction-relation/tag-with-names standard (term (+ 1 (callcc (λ (k) (+ 10 (k 5)))))))
(apply-reduction-relation/tag-with-names standard (term (+ 1 ((λ (k) (+ 10 (k 5))) (cont (+ 1 hole))))))
(apply-reduction-relation/tag-with-names standard (term (+ 1 (+ 10 ((cont (+ 1 hole)) 5)))))
(test-->> standard (term (+ 1 (callcc (λ (k) (+ 10 (k 5)))))) (term 6))

; The machine on the way in, and on the way out.
(apply-reduction-relation/tag-with-names machine (term (state (+ 1 ((λ (y) y) (+ 2 3))) hole)))
(apply-reduction-relation/tag-with-names machine (term (state ((λ (y) y) (+ 2 3)) (+ 1 hole))))
(apply-reduction-relation/tag-with-names machine (term (state (+ 2 3) (+ 1 ((λ (y) y) hole)))))
(apply-reduction-relation/tag-with-names machine (term (state 5 (+ 1 ((λ (y) y) hole)))))
(test-->> machine (term (state (+ 1 ((λ (y) y) (+ 2 3))) hole)) (term (state 6 hole)))

; A continuation that is not called, one that is called with itself, and one that puts a function in the place of another.
(test-->> standard (term (+ 1 (callcc (λ (k) 5)))) (term 6))
(test-->> standard (term ((callcc (λ (k) k)) (λ (y) 7))) (term 7))
(test-->> standard (term ((λ (f) (f (f 1))) (callcc (λ (k) (λ (y) (k (λ (z) (+ y 1)))))))) (term 2))

; Continuations in the context of another one: the inner one is called first, and then the one that it leads to.
(test-->> standard (term (+ 1 ((cont (+ 2 hole)) (callcc (λ (k) (k 3)))))) (term 5))
(test-->> machine (term (state (+ 1 ((cont (+ 2 hole)) (callcc (λ (k) (k 3))))) hole)) (term (state 5 hole)))

; A machine that is done, and one that is stuck.
(test--> machine (term (state 6 hole)))
(test--> machine (term (state (1 2) (+ hole 3))))
(test-results)
