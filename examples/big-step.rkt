#lang racket
; Evaluation in one go, as a judgement: an environment and a term are its inputs, the value is its output. A term with
; choices has a value for each way to choose.
(require redex)

(define-language Eval
  (e x number (e e) (λ (x) e) (+ e e) (choose e e))
  (v number (closure x e r))
  (x variable-not-otherwise-mentioned)
  (r ((x v) ...)))

; A variable that is not bound has no value, which is a fault.
(define-metafunction Eval
  look-up : r x -> v
  [(look-up ((x v) (x_1 v_1) ...) x) v]
  [(look-up ((x_1 v_1) (x_2 v_2) ...) x) (look-up ((x_2 v_2) ...) x)])

; A premise binds the names at its outputs for the premises after it: the body of a function is evaluated where the
; function was made.
(define-judgment-form Eval
  #:mode (evaluates I I O)
  #:contract (evaluates r e v)
  [---------------------------- number
   (evaluates r number number)]
  [-------------------------------- variable
   (evaluates r x (look-up r x))]
  [------------------------------------------ function
   (evaluates r (λ (x) e) (closure x e r))]
  [(evaluates r e_1 number_1)
   (evaluates r e_2 number_2)
   ------------------------------------------------------------------ sum
   (evaluates r (+ e_1 e_2) ,(+ (term number_1) (term number_2)))]
  [(evaluates r e_1 (closure x e ((x_1 v_1) ...)))
   (evaluates r e_2 v_2)
   (evaluates ((x v_2) (x_1 v_1) ...) e v)
   ----------------------------------------- application
   (evaluates r (e_1 e_2) v)]
  [(evaluates r e_1 v)
   ------------------------------- left
   (evaluates r (choose e_1 e_2) v)]
  [(evaluates r e_2 v)
   ------------------------------- right
   (evaluates r (choose e_1 e_2) v)])

(judgment-holds (evaluates () (+ 1 (+ 2 3)) v) v)
(judgment-holds (evaluates () ((λ (y) (+ y 1)) 2) v) v)
(judgment-holds (evaluates () (λ (y) y) v) v)

; What a variable stands for is found where the function was made, and the innermost binding counts.
(judgment-holds (evaluates () (((λ (y) (λ (z) y)) 1) 2) v) v)
(judgment-holds (evaluates () ((λ (y) ((λ (f) ((λ (y) (f 0)) 2)) (λ (z) y))) 1) v) v)
(judgment-holds (evaluates ((y 1) (y 2)) y v) v)

; Each choice gives a value, and each value is listed once.
(judgment-holds (evaluates () (+ (choose 1 2) (choose 10 20)) v) v)
(judgment-holds (evaluates () ((λ (y) (+ y y)) (choose 1 2)) v) v)
(judgment-holds (evaluates () (choose (+ 1 3) (+ 2 2)) v) v)
(judgment-holds (evaluates () (choose 1 2) 2))

; A number is not applied, so this has no value; neither has a variable that stands for nothing, which is told by name.
(judgment-holds (evaluates () (1 2) v) v)
(judgment-holds (evaluates () (+ y 1) v) v)

; This term is evaluated without an end, until 400 judgements and calls stand on one another.
(judgment-holds (evaluates () ((λ (w) (w w)) (λ (w) (w w))) v) v)
