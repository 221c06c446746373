#lang racket
(require redex)
; A typed language with choices: (amb e ...) goes on as each of its parts. A program is a list of terms, one for each way to
; choose so far, and the first one that is no value yet has its turn.
(define-language Amb
  (e x v (e e) (+ e ...) (if0 e e e) (fix e) (amb e ...))
  (v number (λ (x t) e) (fix v))
  (t num (t -> t))
  (G none (x t G))
  (p (e ...))
  (P (v ... E e ...))
  (E hole (E e) (v E) (+ v ... E e ...) (if0 E e e) (fix E))
  (x variable-not-otherwise-mentioned))

; A premise asks about one term. What holds of each item of a list is a judgement by itself: here, that all have one type.
(define-judgment-form Amb
  #:mode (types I I O)
  #:contract (types G e t)
  [(types G number num)]
  [(types (x t G) x t)]
  [(types G x_1 t_1) (side-condition ,(not (equal? (term x_1) (term x_2))))
   ------------------------------------------------------------------------
   (types (x_2 t_2 G) x_1 t_1)]
  [(types (x t_1 G) e t_2)
   ------------------------------------
   (types G (λ (x t_1) e) (t_1 -> t_2))]
  [(types G e_1 (t_1 -> t_2)) (types G e_2 t_1)
   --------------------------------------------
   (types G (e_1 e_2) t_2)]
  [(types G e ((t_1 -> t_2) -> (t_1 -> t_2)))
   ------------------------------------------
   (types G (fix e) (t_1 -> t_2))]
  [(types G e_1 num) (types G e_2 t) (types G e_3 t)
   -------------------------------------------------
   (types G (if0 e_1 e_2 e_3) t)]
  [(types G (+) num)]
  [(all-types G (e ...) num)
   -------------------------
   (types G (+ e ...) num)]
  [(all-types G (e ...) t)
   -------------------------
   (types G (amb e ...) t)])
(define-judgment-form Amb
  #:mode (all-types I I O)
  #:contract (all-types G (e ...) t)
  [(types G e t)
   -------------------
   (all-types G (e) t)]
  [(types G e_1 t) (all-types G (e_2 e_3 ...) t)
   ---------------------------------------------
   (all-types G (e_1 e_2 e_3 ...) t)])

(define-metafunction Amb
  sum : number ... -> number
  [(sum) 0]
  [(sum number_1 number_2 ...) ,(+ (term number_1) (term (sum number_2 ...)))])
(define-metafunction Amb
  subst : any x v -> any
  [(subst x x v) v]
  [(subst (λ (x t) e) x v) (λ (x t) e)]
  [(subst (any ...) x v) ((subst any x v) ...)]
  [(subst any x v) any])

(define red
  (reduction-relation Amb
    #:domain p
    (==> ((λ (x t) e) v) (subst e x v) beta)
    (==> ((fix (λ (x t) e)) v) (((λ (x t) e) (fix (λ (x t) e))) v) fix)
    (==> (+ number ...) (sum number ...) add)
    (==> (if0 0 e_1 e_2) e_1 zero)
    (==> (if0 v e_1 e_2) e_2 other (side-condition (not (equal? (term v) 0))))
    (--> (v ... (in-hole E (amb e_1 ...)) e_2 ...) (v ... (in-hole E e_1) ... e_2 ...) choose)
    with
    [(--> (in-hole P from) (in-hole P to)) (==> from to)]))

; Types: all choices have the same one, so a choice of nothing has none.
(judgment-holds (types none (λ (b num) (amb b (+ b 1))) t) t)
(judgment-holds (types none (fix (λ (f (num -> num)) (λ (b num) (if0 b 0 (+ b (f (+ b -1))))))) t) t)
(judgment-holds (types none (amb 1 (λ (b num) b)) t) t)
(judgment-holds (types none (amb) t) t)
(test-judgment-holds (types (b num (b (num -> num) none)) (+ b (+) 1) num))

; The context of a choice comes once for each part of it, and not at all where there is none.
(apply-reduction-relation/tag-with-names red (term ((+ 1 (amb 2 3 4)))))
(apply-reduction-relation/tag-with-names red (term ((+ 1 2) (+ 1 3))))
(apply-reduction-relation/tag-with-names red (term ((+ 1 (amb)) 5)))
(test-->> red (term ((+ (amb 1 2) (amb 10 20)))) (term (11 21 12 22)))
(test-->> red (term ((amb (amb 1 2) 3))) (term (1 2 3)))

; An argument is chosen before the call, so its two places have one choice; a choice in the body comes after the call.
(test-->> red (term (((λ (b num) (+ b b)) (amb 1 2)))) (term (2 4)))
(test-->> red (term (((λ (b num) (amb b (+ b b))) 5))) (term (5 10)))
(test-->> red (term (((fix (λ (f (num -> num)) (λ (b num) (if0 b 0 (+ b (f (+ b -1))))))) 3))) (term (6)))

; With another P each term could have its turn.
(define-extended-language Any Amb
  (P (e ... E e ...)))
(redex-match Amb (in-hole P (+ number ...)) (term ((+ 1 2) (+ 3))))
(redex-match Any (in-hole P (+ number ...)) (term ((+ 1 2) (+ 3))))
(test--> red (term (1 (λ (b num) b) (1 2) (+ 1 2))))
(test-results)
