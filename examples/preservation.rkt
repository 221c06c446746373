#lang racket
(require redex)
; Preservation and progress, looked at on particular terms. A step is a judgement here, so that other judgements can ask
; about all terms of a run at once.
(define-language Typed
  (e x n (λ (x : t) e) (e e) (+ e e) (pair e e) (fst e) (if0 e e e))
  (n number)
  (v n (λ (x : t) e) (pair v v))
  (t num (t -> t) (t * t))
  (G ((x t) ...))
  (E hole (E e) (v E) (+ E e) (+ v E) (pair E e) (pair v E) (fst E) (if0 E e e))
  (x variable-not-otherwise-mentioned))

; What a variable stands for by the innermost binding, or #f.
(define-metafunction Typed
  look-up : G x -> any
  [(look-up () x) #f]
  [(look-up ((x t) (x_1 t_1) ...) x) t]
  [(look-up ((x_1 t_1) (x_2 t_2) ...) x) (look-up ((x_2 t_2) ...) x)])

(define-judgment-form Typed
  #:mode (types I I O)
  #:contract (types G e t)
  [(types G n num) "T-Number"]
  [(where t (look-up G x))
   ----------------------- "T-Variable"
   (types G x t)]
  [(types ((x t_1) (x_2 t_2) ...) e t)
   --------------------------------------------------- "T-Function"
   (types ((x_2 t_2) ...) (λ (x : t_1) e) (t_1 -> t))]
  [(types G e_1 (t_1 -> t)) (types G e_2 t_1)
   ------------------------------------------ "T-Application"
   (types G (e_1 e_2) t)]
  [(types G e_1 num) (types G e_2 num)
   ----------------------------------- "T-Sum"
   (types G (+ e_1 e_2) num)]
  [(types G e_1 t_1) (types G e_2 t_2)
   ----------------------------------- "T-Pair"
   (types G (pair e_1 e_2) (t_1 * t_2))]
  [(types G e (t_1 * t_2))
   ----------------------- "T-First"
   (types G (fst e) t_1)]
  [(types G e_1 num) (types G e_2 t) (types G e_3 t)
   ------------------------------------------------- "T-If"
   (types G (if0 e_1 e_2 e_3) t)])

; Values are closed, so nothing can be caught.
(define-metafunction Typed
  subst : any x v -> any
  [(subst x x v) v]
  [(subst (λ (x : t) e) x v) (λ (x : t) e)]
  [(subst (any ...) x v) ((subst any x v) ...)]
  [(subst any x v) any])

(define-judgment-form Typed
  #:mode (contracts I O)
  [(contracts ((λ (x : t) e) v) (subst e x v)) beta]
  [(contracts (+ n_1 n_2) ,(+ (term n_1) (term n_2))) sum]
  [(contracts (fst (pair v_1 v_2)) v_1) first]
  [(contracts (if0 0 e_1 e_2) e_1) zero]
  [(contracts (if0 n e_1 e_2) e_2) (side-condition ,(not (= (term n) 0))) other])

(define-judgment-form Typed
  #:mode (steps I O)
  [(contracts e_1 e_2)
   ---------------------------------------
   (steps (in-hole E e_1) (in-hole E e_2))])

(define-judgment-form Typed
  #:mode (reaches I O)
  [(reaches e e) now]
  [(steps e_1 e_2) (reaches e_2 e_3)
   --------------------------------- later
   (reaches e_1 e_3)])
; The relation takes the steps of the judgement.
(define red
  (reduction-relation Typed (--> e_1 e_2 (judgment-holds (steps e_1 e_2)))))

; All types of all terms of a run, and a step on a run that breaks preservation.
(define-judgment-form Typed
  #:mode (run-types I O)
  [(reaches e e_1) (types () e_1 t)
   --------------------------------
   (run-types e t)])
(define-metafunction Typed
  has-type? : e t -> boolean
  [(has-type? e t) #t (judgment-holds (types () e t))]
  [(has-type? e t) #f])
(define-judgment-form Typed
  #:mode (breaks I O O)
  [(reaches e e_1) (types () e_1 t) (steps e_1 e_2) (side-condition ,(not (term (has-type? e_2 t))))
   -------------------------------------------------------------------------------------------------
   (breaks e e_1 e_2)])

; Progress: a term is a value, takes a step, or is stuck.
(define-metafunction Typed
  progress : e -> any
  [(progress v) value]
  [(progress e) step (judgment-holds (steps e e_1))]
  [(progress e) stuck])
(judgment-holds (types () (λ (b : num) (pair b (λ (c : num) (+ b c)))) t) t)
(judgment-holds (reaches ((λ (f : (num -> num)) (pair (f 1) (f 2))) (λ (b : num) (+ b 10))) e) e)
(judgment-holds (run-types ((λ (f : (num -> num)) (pair (f 1) (f 2))) (λ (b : num) (+ b 10))) t) t)
(judgment-holds (breaks ((λ (f : (num -> num)) (pair (f 1) (f 2))) (λ (b : num) (+ b 10))) e_1 e_2))
(test-->> red (term ((λ (f : (num -> num)) (pair (f 1) (f 2))) (λ (b : num) (+ b 10)))) (term (pair 11 12)))

; A branch that is never taken has to have the type too.
(judgment-holds (types () (if0 0 1 (pair 1 2)) t))
(judgment-holds (run-types (if0 (fst (pair 0 1)) (fst (pair 5 (λ (b : num) b))) (+ 1 1)) t) t)

; The converse does not hold: this step leads from a term without a type to one that has a type.
(test--> red (term (fst (pair 1 (λ (b : num) (b b))))) (term 1))
(judgment-holds (types () (fst (pair 1 (λ (b : num) (b b)))) t))
(judgment-holds (run-types (fst (pair 1 (λ (b : num) (b b)))) t) t)

; Progress, with a type and without.
(test-equal (term (progress (λ (b : num) (b b)))) (term value))
(test-equal (term (progress (+ (fst (pair 1 2)) 3))) (term step))
(test-equal (term (progress (+ (fst 1) 3))) (term stuck))
(test-results)
