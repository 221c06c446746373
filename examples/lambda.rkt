#lang racket
; The lambda calculus. A variable is a symbol that the grammar doesn't use for itself.
(define-language Lambda
  (e x (lambda (x) e) (e e))
  (v (lambda (x) e))
  (x variable-not-otherwise-mentioned))

(redex-match? Lambda e (term (lambda (y) (y y))))

; `lambda` is no variable, so this is no application.
(redex-match? Lambda e (term (lambda lambda)))

; A redex under call by value: a function that is applied to a value.
(redex-match Lambda ((lambda (x) e) v) (term ((lambda (y) (y y)) (lambda (z) z))))

; No redex, since a variable is no value.
(redex-match Lambda ((lambda (x) e) v) (term ((lambda (y) y) z)))

; Equal means equal as written: functions that differ in the names of their variables differ.
(redex-match Lambda (e_1 e_1) (term ((lambda (z) z) (lambda (z) z))))
(redex-match Lambda (e_1 e_1) (term ((lambda (y) y) (lambda (z) z))))
