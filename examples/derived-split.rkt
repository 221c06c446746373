#lang racket
; Why a context leads to a part. Below each split of `redex-decompose`, and below each match of an `in-hole`, the word `why`
; writes a derivation; a line of it with a slash is about a split: the context, and the part in its hole.
(require redex)

(define-language Arith
  (e number (+ e e))
  (v number)
  (E hole (+ E e) (+ v E)))

; The first alternative of E leads to the whole sum, the second to its first part, the third to its second part.
(redex-decompose Arith E (term (+ 1 2)))

; A mistake in E: the part before the hole may be any e.
(define-extended-language Takes Arith
  (E hole (+ E e) (+ e E)))

; So two sums can be computed next. The second match is by E/3, and what stands before its hole is (+ 1 2), by e/2: no value.
(redex-match Takes (in-hole E (+ v_1 v_2)) (term (+ (+ 1 2) (+ 3 4))))

; By the third alternative of the right contexts there is no split.
(redex-decompose Arith (+ v E) (term (+ (+ 1 2) (+ 3 4))))
