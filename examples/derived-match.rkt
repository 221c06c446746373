#lang racket
; Why a pattern matches a term. The word `why` in place of `run` (./redex why < FILE) writes below each match a derivation of
; it, rule by rule, as in derived-match.why: a line says by which pattern a term matches, and the lines below it that stand
; further in say by what it does.
(require redex)

(define-language Infix
  (e number (e - e)))

; Two matches where one was meant: each `-` may be the one that the pattern asks for. In the first match the literal stands
; behind 1, and any_2 has the other `-`; in the second it is the other way round.
(redex-match Infix (any_1 ... - any_2 ...) (term (1 - 2 - 3)))

; What stands behind the last `-` is one number, so this pattern asks for that one.
(redex-match Infix (any_1 ... - number_1) (term (1 - 2 - 3)))

; The grammar takes (1 - (2 - 3)) and not the flat list: below e/2 there has to be an item for each of three patterns.
(redex-match Infix e (term (1 - (2 - 3))))
(redex-match Infix e (term (1 - 2 - 3)))

(define-language Functions
  (e x (e e ...) (fun (x) e))
  (x variable-not-otherwise-mentioned))

; A match where none was meant: `fun` is misspelled. The derivation says by the second alternative of e, so this is a call of
; a variable `fn`.
(redex-match Functions e (term (fn (y) y)))
(redex-match Functions e (term (fun (y) y)))
