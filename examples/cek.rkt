#lang racket
(require redex)
; A machine with an environment and a continuation: no substitution, and no search for a redex, since what is left to do
; stands outermost. Beside it, the same language by substitution and evaluation contexts, for the same answers.
(define-language Terms
  (e x n (λ (x) e) (e e) (+ e e) (if0 e e e))
  (n number)
  (x variable-not-otherwise-mentioned))

(define-extended-language Machine Terms
  (state (eval e r k) (return v k))
  (v n (closure x e r))
  (r ((x v) ...))
  (k done (argument e r k) (call v k) (right e r k) (add n k) (branch e e r k)))

(define-metafunction Machine
  look-up : x r -> v
  [(look-up x ((x v) (x_1 v_1) ...)) v]
  [(look-up x ((x_1 v_1) (x_2 v_2) ...)) (look-up x ((x_2 v_2) ...))])

(define machine
  (reduction-relation Machine
    #:domain state
    (--> (eval n r k) (return n k) number)
    (--> (eval (λ (x) e) r k) (return (closure x e r) k) close)
    (--> (eval x r k) (return (look-up x r) k) look-up)
    (--> (eval (e_1 e_2) r k) (eval e_1 r (argument e_2 r k)) application)
    (--> (eval (+ e_1 e_2) r k) (eval e_1 r (right e_2 r k)) sum)
    (--> (eval (if0 e_1 e_2 e_3) r k) (eval e_1 r (branch e_2 e_3 r k)) "if")
    (--> (return v (argument e r k)) (eval e r (call v k)) argument)
    (--> (return v (call (closure x e ((x_1 v_1) ...)) k)) (eval e ((x v) (x_1 v_1) ...) k) call)
    (--> (return n (right e r k)) (eval e r (add n k)) right)
    (--> (return n_2 (add n_1 k)) (return ,(+ (term n_1) (term n_2)) k) add)
    (--> (return 0 (branch e_1 e_2 r k)) (eval e_1 r k) zero)
    (--> (return v (branch e_1 e_2 r k)) (eval e_2 r k) other
         (side-condition (not (equal? (term v) 0))))))

(define-extended-language Contexts Terms
  (v n (λ (x) e))
  (E hole (E e) (v E) (+ E e) (+ v E) (if0 E e e)))

(define-metafunction Contexts
  subst : any x v -> any
  [(subst x x v) v]
  [(subst (λ (x) e) x v) (λ (x) e)]
  [(subst (any ...) x v) ((subst any x v) ...)]
  [(subst any x v) any])

(define standard
  (reduction-relation Contexts
    #:domain e
    (--> (in-hole E ((λ (x) e) v)) (in-hole E (subst e x v)) beta)
    (--> (in-hole E (+ n_1 n_2)) (in-hole E ,(+ (term n_1) (term n_2))) add)
    (--> (in-hole E (if0 0 e_1 e_2)) (in-hole E e_1) zero)
    (--> (in-hole E (if0 v e_1 e_2)) (in-hole E e_2) other
         (side-condition (not (equal? (term v) 0))))))

; The steps of a small program, one by one.
(apply-reduction-relation/tag-with-names machine (term (eval ((λ (a) (+ a 1)) 2) () done)))
(apply-reduction-relation/tag-with-names machine (term (eval (λ (a) (+ a 1)) () (argument 2 () done))))
(apply-reduction-relation/tag-with-names machine (term (return (closure a (+ a 1) ()) (argument 2 () done))))
(apply-reduction-relation/tag-with-names machine (term (eval 2 () (call (closure a (+ a 1) ()) done))))
(apply-reduction-relation/tag-with-names machine (term (return 2 (call (closure a (+ a 1) ()) done))))
(apply-reduction-relation/tag-with-names machine (term (eval (+ a 1) ((a 2)) done)))
(apply-reduction-relation/tag-with-names machine (term (eval a ((a 2)) (right 1 ((a 2)) done))))
(apply-reduction-relation/tag-with-names machine (term (return 2 (right 1 ((a 2)) done))))
(apply-reduction-relation/tag-with-names machine (term (return 1 (add 2 done))))
(apply-reduction-relation/tag-with-names machine (term (return 3 done)))

; The same answers both ways.
(test-->> machine (term (eval ((λ (a) (+ a 1)) 2) () done)) (term (return 3 done)))
(test-->> standard (term ((λ (a) (+ a 1)) 2)) (term 3))
(test-->> machine (term (eval (((λ (a) (λ (b) (if0 a b (+ a b)))) 5) (+ 3 4)) () done)) (term (return 12 done)))
(test-->> standard (term (((λ (a) (λ (b) (if0 a b (+ a b)))) 5) (+ 3 4))) (term 12))

; A closure where the substitution puts a function with its parts in place.
(test-->> machine (term (eval ((λ (a) (λ (b) (+ a b))) 1) () done)) (term (return (closure b (+ a b) ((a 1))) done)))
(test-->> standard (term ((λ (a) (λ (b) (+ a b))) 1)) (term (λ (b) (+ 1 b))))

; The innermost binding counts, and a function is run where it was made.
(test-equal (term (look-up a ((b 1) (a 2) (a 3)))) (term 2))
(test-->> machine
          (term (eval ((λ (a) ((λ (f) ((λ (a) (f 0)) 2)) (λ (b) a))) 1) () done))
          (term (return 1 done)))

; Stuck: a number is called. A variable that nothing binds has no value, which is a fault of the step.
(apply-reduction-relation machine (term (return 2 (call 1 done))))
(apply-reduction-relation machine (term (eval a ((b 1)) done)))
(test-results)
