#lang racket
(require redex)
; Subtypes: records with more fields stand for those with fewer, functions turn their arguments round, and there is a
; greatest type. Two judgements about types, and one that uses them for terms.
(define-language Sub
  (t top int bool (t -> t) (rec (x t) ...))
  (e x number boolean (λ (x : t) e) (e e) (record (x e) ...) (e at x) (if e e e))
  (G ((x t) ...))
  (x variable-not-otherwise-mentioned))

(define-judgment-form Sub
  #:mode (<: I I)
  #:contract (<: t t)
  [------------ "S-Top"
   (<: t top)]
  [------------ "S-Int"
   (<: int int)]
  [-------------- "S-Bool"
   (<: bool bool)]
  [(<: t_3 t_1)
   (<: t_2 t_4)
   ------------------------------ "S-Function"
   (<: (t_1 -> t_2) (t_3 -> t_4))]
  [-------------------------- "S-Empty"
   (<: (rec (x t) ...) (rec))]
  [(<: t_2 t_4)
   (<: (rec (x_1 t_1) ... (x t_2) (x_3 t_3) ...) (rec (x_5 t_5) ...))
   ----------------------------------------------------------------------------- "S-Field"
   (<: (rec (x_1 t_1) ... (x t_2) (x_3 t_3) ...) (rec (x t_4) (x_5 t_5) ...))])

; The types above one that has no functions in it: a record keeps some of its fields in their order, with types above theirs.
(define-judgment-form Sub
  #:mode (above I O)
  #:contract (above t t)
  [(above t top)]
  [(above int int)]
  [(above bool bool)]
  [(above (rec) (rec))]
  [(above (rec (x_1 t_1) ...) t_2)
   ------------------------------------- forgotten
   (above (rec (x t) (x_1 t_1) ...) t_2)]
  [(above t t_2)
   (above (rec (x_1 t_1) ...) (rec (x_3 t_3) ...))
   ------------------------------------------------------- kept
   (above (rec (x t) (x_1 t_1) ...) (rec (x t_2) (x_3 t_3) ...))])

; A function takes an argument of each type below that of its parameter. The branches of a condition have a type that is
; above that of the other one.
(define-judgment-form Sub
  #:mode (types I I O)
  #:contract (types G e t)
  [(types G number int)]
  [(types G boolean bool)]
  [(where ((x_1 t_1) ... (x t) (x_2 t_2) ...) G)
   (side-condition (absent x (x_1 ...)))
   ---------------------------------------------
   (types G x t)]
  [(types ((x t) (x_1 t_1) ...) e t_2)
   ------------------------------------------------------
   (types ((x_1 t_1) ...) (λ (x : t) e) (t -> t_2))]
  [(types G e_1 (t_1 -> t))
   (types G e_2 t_2)
   (<: t_2 t_1)
   ------------------------
   (types G (e_1 e_2) t)]
  [(types G (record) (rec))]
  [(types G e t)
   (types G (record (x_1 e_1) ...) (rec (x_1 t_1) ...))
   --------------------------------------------------------------------
   (types G (record (x e) (x_1 e_1) ...) (rec (x t) (x_1 t_1) ...))]
  [(types G e (rec (x_1 t_1) ... (x t) (x_2 t_2) ...))
   ---------------------------------------------------
   (types G (e at x) t)]
  [(types G e_1 bool)
   (types G e_2 t_2)
   (types G e_3 t_3)
   (upper t_2 t_3 t)
   ---------------------------
   (types G (if e_1 e_2 e_3) t)])
(define-judgment-form Sub
  #:mode (upper I I O)
  [(<: t_1 t_2) --- left (upper t_1 t_2 t_2)]
  [(<: t_2 t_1) --- right (upper t_1 t_2 t_1)])
(define-metafunction Sub
  absent : x (x ...) -> boolean
  [(absent x (_ ... x _ ...)) #f]
  [(absent x _) #t])

; Width, depth and order of the fields; functions.
(test-judgment-holds (<: (rec (a int) (b bool)) (rec (a int))))
(test-judgment-holds (<: (rec (a int) (b bool)) (rec (b top) (a int))))
(test-judgment-holds (<: ((rec (a int)) -> int) ((rec (b int) (a int)) -> top)))
(judgment-holds (<: ((rec (a int) (b int)) -> int) ((rec (a int)) -> int)))
(judgment-holds (<: top int))
(test-judgment-holds (<: (rec (a (rec (b int) (c int)))) (rec (a (rec (b int))))))

; All types above one, and those of them that are records.
(judgment-holds (above (rec (a int)) t) t)
(judgment-holds (above (rec (a int) (b bool)) (rec (x t) ...)) ((x ...) with (t ...)))

; Terms.
(judgment-holds (types () ((λ (r : (rec (a int))) (r at a)) (record (b #t) (a 1))) t) t)
(judgment-holds (types () ((λ (r : (rec (a int))) (r at b)) (record (b #t) (a 1))) t) t)
(judgment-holds (types () (λ (y : int) (λ (y : bool) y)) t) t)
(judgment-holds (types ((r (rec (a int)))) (if #t r (record (b 1) (a 2))) t) t)
(judgment-holds (types () (if #t (λ (y : int) y) (λ (y : top) 1)) t) t)

; Two records with the same fields in another order: each type is above the other, so there are two answers.
(judgment-holds (types () (if #t (record (a 1) (b 2)) (record (b 1) (a 2))) t) t)
(test-results)
