#lang racket
; Arithmetic expressions: numbers, and sums and products of two expressions.
(define-language Arithmetic
  (e number (+ e e) (* e e)))

; Is this an expression?
(redex-match? Arithmetic e (term (+ 1 (* 2 3))))

; This is none, since a sum has two parts.
(redex-match? Arithmetic e (term (+ 1 2 3)))

; The two parts of a sum, each under a name of its own.
(redex-match Arithmetic (+ e_left e_right) (term (+ 1 (* 2 3))))

; Sums of two numbers can be added at once. The first is none, the second is one.
(redex-match Arithmetic (+ number_1 number_2) (term (+ 1 (* 2 3))))
(redex-match Arithmetic (+ number_1 number_2) (term (+ 1 2)))

; A sum of equal parts: a name that stands twice has one value.
(redex-match Arithmetic (+ e_1 e_1) (term (+ (* 2 3) (* 2 3))))
(redex-match Arithmetic (+ e_1 e_1) (term (+ (* 2 3) (* 3 2))))
