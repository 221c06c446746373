#lang racket
(require redex)
; How to find a mistake in the contexts E. `redex-decompose` lists every way in which E splits a term into a context and the
; part in its hole. A term that is no value should have one split, and only one, whose part can be computed: here a sum of two
; numbers.
(define-language Arith
  (e number (+ e e))
  (v number))

; Three grammars of E: the first one forgets a case, the second one takes too much, the third one is right.
(define-extended-language Forgets Arith
  (E hole (+ E e)))
(define-extended-language Takes Arith
  (E hole (+ E e) (+ e E)))
(define-extended-language Right Arith
  (E hole (+ E e) (+ v E)))
(define forgets
  (reduction-relation Forgets
    (--> (in-hole E (+ v_1 v_2)) (in-hole E ,(+ (term v_1) (term v_2))) add)))
(define takes
  (reduction-relation Takes
    (--> (in-hole E (+ v_1 v_2)) (in-hole E ,(+ (term v_1) (term v_2))) add)))
(define right
  (reduction-relation Right
    (--> (in-hole E (+ v_1 v_2)) (in-hole E ,(+ (term v_1) (term v_2))) add)))

; What shows first: a term that is stuck although it is no value.
(apply-reduction-relation forgets (term (+ 1 (+ 2 3))))
; Why: no split has the part (+ 2 3), since no context leads into the second part of a sum. The path says where the hole is,
; in items counted from 0: [1] is the first part of the sum, [2] would be the second.
(redex-decompose Forgets E (term (+ 1 (+ 2 3))))
(redex-decompose Right E (term (+ 1 (+ 2 3))))
(test-->> right (term (+ 1 (+ 2 3))) (term 6))

; What shows first of the other mistake: a run that branches, since a term has two next terms.
(apply-reduction-relation takes (term (+ (+ 1 2) (+ 3 4))))
(test-->> takes (term (+ (+ 1 2) (+ 3 4))) (term 10))
; Why: (+ 1 2) is the part of a split, and (+ 3 4) of another one. By the right contexts the second part of a sum has its turn
; when the first is a value.
(redex-decompose Takes E (term (+ (+ 1 2) (+ 3 4))))
(redex-decompose Right E (term (+ (+ 1 2) (+ 3 4))))
(test-->> right (term (+ (+ 1 2) (+ 3 4))) (term 10))

; Shorter, where the list of all splits is long: the contexts whose part is a sum of two values. None is a mistake, and two
; are another.
(redex-match Forgets (in-hole E (+ v_1 v_2)) (term (+ 1 (+ 2 3))))
(redex-match Takes (in-hole E (+ v_1 v_2)) (term (+ (+ 1 2) (+ 3 4))))
(redex-match Right (in-hole E (+ v_1 v_2)) (term (+ (+ 1 2) (+ 3 4))))
(test-results)
