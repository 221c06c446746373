#lang racket
; Simple types as a judgement: an environment and a term are its inputs, the type is its output. A term without a type is no
; fault: no rule gives an output.
(require redex)

(define-language Typed
  (e x n b (e e) (λ (x : t) e) (if e e e) (+ e e))
  (n number)
  (b boolean)
  (t num bool (t -> t))
  (x variable-not-otherwise-mentioned)
  (G ((x t) ...)))

; The innermost of several variables of one name counts.
(define-judgment-form Typed
  #:mode (bound I I O)
  #:contract (bound G x t)
  [---------------------------------- here
   (bound ((x t) (x_1 t_1) ...) x t)]
  [(side-condition ,(not (equal? (term x) (term x_1))))
   (bound ((x_2 t_2) ...) x t)
   ------------------------------------------ there
   (bound ((x_1 t_1) (x_2 t_2) ...) x t)])

(define-judgment-form Typed
  #:mode (types I I O)
  #:contract (types G e t)
  [--------------- number
   (types G n num)]
  [---------------- boolean
   (types G b bool)]
  [(bound G x t)
   ------------- variable
   (types G x t)]
  [(types G e_1 num)
   (types G e_2 num)
   ----------------------- sum
   (types G (+ e_1 e_2) num)]
  [(types G e_1 bool)
   (types G e_2 t)
   (types G e_3 t)
   ---------------------------- "if"
   (types G (if e_1 e_2 e_3) t)]
  [(types ((x t_1) (x_1 t_2) ...) e t)
   --------------------------------------------------------- function
   (types ((x_1 t_2) ...) (λ (x : t_1) e) (t_1 -> t))]
  [(types G e_1 (t_1 -> t))
   (types G e_2 t_1)
   --------------------- application
   (types G (e_1 e_2) t)])

; Terms with a type.
(judgment-holds (types () (λ (y : num) (+ y 1)) t) t)
(judgment-holds (types () ((λ (f : (num -> bool)) (f 1)) (λ (y : num) #t)) t) t)
(judgment-holds (types () (λ (y : num) (λ (y : bool) y)) t) t)

; In an environment. The parts of a type have names here, and the template puts them together anew.
(judgment-holds (types ((f (num -> bool)) (y num)) (if (f y) y (+ y 1)) t) t)
(judgment-holds (types ((f (num -> bool))) f (t_1 -> t_2)) (from t_1 to t_2))

; Whether a term has a type of this form.
(judgment-holds (types () (λ (y : num) y) (num -> t)))
(judgment-holds (types () (λ (y : num) y) (bool -> t)))

; Terms without a type: a boolean is not added, both branches need one type, a number is not applied, and a variable has to
; be bound.
(judgment-holds (types () (+ #t 1) t))
(judgment-holds (types () (if #t 1 #f) t) t)
(judgment-holds (types () (λ (y : num) (y y)) t) t)
(judgment-holds (types ((y num)) z t) t)
