#lang racket
; The lambda calculus, and over it a language with numbers and types. The extension keeps what it
; inherits at the four dots.
(define-language Lambda
  (e x (lambda (x) e) (e e))
  (x variable-not-otherwise-mentioned))

(define-extended-language Typed Lambda
  (e .... number (lambda (x : t) e))
  (t num (t -> t)))

; The base stays as it was.
(redex-match? Lambda e (term ((lambda (y) y) 1)))
(redex-match? Typed e (term ((lambda (y) y) 1)))

; The parts of a function with a type.
(redex-match Typed (lambda (x : t) e) (term (lambda (f : (num -> num)) (f 1))))

; `num` is a variable where the grammar doesn't mention it.
(redex-match? Lambda x (term num))
(redex-match? Typed x (term num))

; Types of functions from a type to another, and from a type to itself.
(redex-match Typed (t_1 -> t_2) (term (num -> (num -> num))))
(redex-match Typed (t_1 -> t_1) (term ((num -> num) -> (num -> num))))
(redex-match Typed (t_1 -> t_1) (term (num -> (num -> num))))
