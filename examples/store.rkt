#lang racket
(require redex)
; Cells that change: the store is a part of the program, a list of locations with what they hold, and evaluation contexts
; say where the program is. A new cell gets the location after the last one.
(define-language Store
  (p (s e))
  (s ((l v) ...))
  (l (loc natural))
  (e x v (e e) (+ e e) (if0 e e e) (begin e e ...) (new e) (get e) (set e e))
  (v number l void (λ (x) e))
  (x variable-not-otherwise-mentioned)
  (E hole (E e) (v E) (+ E e) (+ v E) (if0 E e e) (begin E e ...) (new E) (get E) (set E e) (set v E)))

(define-metafunction Store
  next : s -> l
  [(next ()) (loc 0)]
  [(next ((l_1 v_1) ... ((loc natural) v))) (loc ,(add1 (term natural)))])

(define-metafunction Store
  subst : any x v -> any
  [(subst x x v) v]
  [(subst (λ (x) e) x v) (λ (x) e)]
  [(subst (any ...) x v) ((subst any x v) ...)]
  [(subst any x v) any])

; The arrow ==> is for the steps that leave the store alone.
(define red
  (reduction-relation Store
    #:domain p
    (==> ((λ (x) e) v) (subst e x v) beta)
    (==> (+ number_1 number_2) ,(+ (term number_1) (term number_2)) add)
    (==> (if0 0 e_1 e_2) e_1 zero)
    (==> (if0 v e_1 e_2) e_2 other (side-condition (not (equal? (term v) 0))))
    (==> (begin v e_1 e_2 ...) (begin e_1 e_2 ...) drop)
    (==> (begin v) v last)
    (--> (s (in-hole E (new v)))
         (((l_1 v_1) ... (l v)) (in-hole E l))
         (where ((l_1 v_1) ...) s)
         (where l (next s))
         new)
    (--> ((name s (_ ... (l v) _ ...)) (in-hole E (get l)))
         (s (in-hole E v))
         get)
    (--> (((l_1 v_1) ... (l v) (l_2 v_2) ...) (in-hole E (set l v_3)))
         (((l_1 v_1) ... (l v_3) (l_2 v_2) ...) (in-hole E void))
         set)
    with
    [(--> (s (in-hole E from)) (s (in-hole E to))) (==> from to)]))

(term (next ()))
(term (next (((loc 0) 5) ((loc 1) void))))
(redex-match Store (s (in-hole E (get l))) (term ((((loc 0) 5)) (+ 1 (get (loc 0))))))

; Step by step.
(apply-reduction-relation/tag-with-names red (term (() (+ (get (new 1)) (get (new 2))))))
(apply-reduction-relation/tag-with-names red (term ((((loc 0) 1)) (+ (get (loc 0)) (get (new 2))))))
(apply-reduction-relation/tag-with-names red (term ((((loc 0) 1)) (+ 1 (get (new 2))))))
(apply-reduction-relation/tag-with-names red (term ((((loc 0) 1) ((loc 1) 2)) (begin (set (loc 0) 7) 3))))
(test-->> red (term (() (+ (get (new 1)) (get (new 2))))) (term ((((loc 0) 1) ((loc 1) 2)) 3)))

; A counter, two names for one cell, and a cell in a cell.
(test-->> red
          (term (() ((λ (c) (begin (set c (+ (get c) 1)) (set c (+ (get c) 1)) (get c))) (new 5))))
          (term ((((loc 0) 7)) 7)))
(test-->> red
          (term (() ((λ (a) ((λ (b) (begin (set b 2) (get a))) a)) (new 1))))
          (term ((((loc 0) 2)) 2)))
(test-->> red (term (() (get (get (new (new 8)))))) (term ((((loc 0) 8) ((loc 1) (loc 0))) 8)))

; A function that finds itself in the store: it adds up the numbers from 3 down.
(test-->> red
          (term (() ((λ (f) (begin (set f (λ (a) (if0 a 0 (+ a ((get f) (+ a -1)))))) ((get f) 3))) (new void))))
          (term ((((loc 0) (λ (a) (if0 a 0 (+ a ((get (loc 0)) (+ a -1))))))) 6)))

; The same cell has the same value at each of two places; a new one is a new one each time.
(test-->> red (term (() ((λ (c) (+ (get c) (get c))) (new 4)))) (term ((((loc 0) 4)) 8)))
(test-->> red
          (term (() ((λ (f) (begin (f 1) (f 1))) (λ (a) (new a)))))
          (term ((((loc 0) 1) ((loc 1) 1)) (loc 1))))

; A location that is not in the store is stuck, and a number is no location.
(apply-reduction-relation red (term ((((loc 0) 1)) (get (loc 3)))))
(test--> red (term (() (set 1 2))))
(test-match Store p (term ((((loc 0) 1)) (get (loc 3)))))
(test-no-match Store p (term (((0 1)) (get (loc 0)))))
(test-results)
