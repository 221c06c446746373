#lang racket
; A grammar that goes round in a circle: an expr may be a summand, and a summand an expr, of the same
; term. It is refused, at its form and with the first nonterminal that leads back to itself. That the
; expr in the list is smaller makes no difference.
(define-language Sums
  (expr (expr + summand) summand)
  (summand expr number))

(redex-match Sums expr (term (1 + 2)))
