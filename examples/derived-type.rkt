#lang racket
; Why a judgement holds. Below each value of `judgment-holds`, and below `holds #t`, the word `why` writes a derivation: the
; judgement with all its arguments and the rule that it is by; below it how the rule takes the inputs, and then its premises.
(require redex)

(define-language Typed
  (e n x (λ (x t) e))
  (t num (t -> t))
  (G ((x t) ...))
  (n number)
  (x variable-not-otherwise-mentioned))

; A mistake: the rule for variables takes any of the types that G has for x, and not the innermost alone.
(define-judgment-form Typed
  #:mode (types I I O)
  [-------------- number
   (types G n num)]
  [(where (_ ... (x t) _ ...) G)
   ----------------------------- variable
   (types G x t)]
  [(types ((x_1 t_1) (x_2 t_2) ...) e t)
   ----------------------------------------------------- function
   (types ((x_2 t_2) ...) (λ (x_1 t_1) e) (t_1 -> t))])

; The type of a function is by that of its body, in which y is known.
(judgment-holds (types () (λ (y num) y) t) t)
(judgment-holds (types () (λ (y num) 1) (num -> num)))
(judgment-holds (types () (λ (y num) y) num))

; Two types of one variable: by the line `_` below the rule `variable` either item of G may be passed over.
(judgment-holds (types ((y (num -> num)) (y num)) y t) t)
