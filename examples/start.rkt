#lang racket
; Truth values with `not` and `or`, evaluated from the left: a query of each kind. The page at the top of the repository shows this file.
(define-language Bool
  (e true false (not e) (or e e))
  (E hole (not E) (or E e)))

; The steps of an evaluation.
(define red
  (reduction-relation Bool
    (--> (in-hole E (not true)) (in-hole E false) "not-true")
    (--> (in-hole E (not false)) (in-hole E true) "not-false")
    (--> (in-hole E (or true e)) (in-hole E true) "or-true")
    (--> (in-hole E (or false e)) (in-hole E e) "or-false")))

; How many truth values are written in a term, and one more for each `not`.
(define-metafunction Bool
  [(size true) 1]
  [(size false) 1]
  [(size (not e)) ,(+ 1 (term (size e)))]
  [(size (or e_1 e_2)) ,(+ (term (size e_1)) (term (size e_2)))])

; Whether `or` can be true, by either side.
(define-judgment-form Bool
  #:mode (evals I O)
  [(evals true true) "true"]
  [(evals (or e_1 e_2) true) (evals e_1 true) "left"]
  [(evals (or e_1 e_2) true) (evals e_2 true) "right"])

(redex-match Bool (or e_1 e_2) (term (or true (not false))))
(redex-decompose Bool E (term (or (not true) false)))
(apply-reduction-relation/tag-with-names red (term (or (not true) false)))
(term (size (or (not true) false)))
(judgment-holds (evals (or (or true false) true) e) e)
(test-->> red (term (or (not true) (not (not true)))) (term true))
