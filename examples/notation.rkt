#lang racket
; The same grammar may be written in several ways. Round, square and curly brackets mean the same.
(define-language Λ
  [e ::= x (λ (x) e) (e e)]           ; `::=` between a nonterminal and its alternatives
  [(u w) x (u w)]                     ; two nonterminals with the same alternatives
  [x y ::= variable-not-otherwise-mentioned])

#| A comment over several lines,
   #| with another one in it. |# |#
(redex-match Λ ((λ (x) e_1) e_2) (term ((λ (a) a) b)))

; A name in a pattern stands for what its part matches, beside what the part binds.
(redex-match Λ (name whole (u_1 w)) [term {a (b c)}])

#;(redex-match? Λ e (term "this query is left out"))
(redex-match? Λ e (term (a "b")))

; A name that stands twice in a grammar must stand for one term, and is not bound outside it.
(define-language Twice
  (same (e_1 e_1))
  (e any))
(redex-match Twice same (term (1 1)))
(redex-match Twice same (term (1 2)))
