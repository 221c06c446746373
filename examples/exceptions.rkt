#lang racket
(require redex)
; Exceptions. E is every evaluation context, and F is one without a try: so where a throw stands in an F in a try in an E,
; this try is the innermost one around it.
(define-language Exceptions
  (e x v (e e) (+ e e) (/ e e) (throw e) (try e (catch x e)))
  (v number string (λ (x) e))
  (x variable-not-otherwise-mentioned)
  (E hole (E e) (v E) (+ E e) (+ v E) (/ E e) (/ v E) (throw E) (try E (catch x e)))
  (F hole (F e) (v F) (+ F e) (+ v F) (/ F e) (/ v F) (throw F)))

; Values are closed, so nothing can be caught by a name.
(define-metafunction Exceptions
  subst : any x v -> any
  [(subst x x v) v]
  [(subst (λ (x) e) x v) (λ (x) e)]
  [(subst (try e_1 (catch x e_2)) x v) (try (subst e_1 x v) (catch x e_2))]
  [(subst (any ...) x v) ((subst any x v) ...)]
  [(subst any x v) any])

(define red
  (reduction-relation Exceptions
    #:domain e
    (--> (in-hole E ((λ (x) e) v)) (in-hole E (subst e x v)) beta)
    (--> (in-hole E (+ number_1 number_2)) (in-hole E ,(+ (term number_1) (term number_2))) add)
    (--> (in-hole E (/ number_1 number_2)) (in-hole E ,(quotient (term number_1) (term number_2))) divide
         (side-condition (not (zero? (term number_2)))))
    ; Two errors become exceptions.
    (--> (in-hole E (/ number 0)) (in-hole E (throw "division by zero")) divide-by-zero)
    (--> (in-hole E (number v)) (in-hole E (throw "not a function")) not-a-function)
    ; A try is done, catches what is thrown in it, or there is none.
    (--> (in-hole E (try v (catch x e))) (in-hole E v) done)
    (--> (in-hole E (try (in-hole F (throw v)) (catch x e))) (in-hole E (subst e x v)) caught)
    (--> (in-hole F (throw v)) (throw v) uncaught
         (side-condition (not (equal? (term F) (term hole)))))))

; The innermost try, and every try. What stands between is E and F in the first answer, and two contexts E in the others.
(redex-match Exceptions (in-hole E (try (in-hole F (throw v)) (catch x e)))
  (term (+ 1 (try (+ 2 (try (+ 3 (throw 4)) (catch b (+ b 10)))) (catch c c)))))
(redex-match Exceptions (in-hole E_1 (try (in-hole E_2 (throw v)) (catch x e)))
  (term (+ 1 (try (+ 2 (try (+ 3 (throw 4)) (catch b (+ b 10)))) (catch c c)))))

(apply-reduction-relation/tag-with-names red
  (term (+ 1 (try (+ 2 (try (+ 3 (throw 4)) (catch b (+ b 10)))) (catch c c)))))
(test-->> red (term (+ 1 (try (+ 2 (try (+ 3 (throw 4)) (catch b (+ b 10)))) (catch c c)))) (term 17))

; Nothing is thrown; what is thrown is computed first; what throws what it throws throws once.
(test-->> red (term (try (+ 1 2) (catch b 0))) (term 3))
(test-->> red (term (try (+ 1 (throw (+ 2 3))) (catch b (+ b b)))) (term 10))
(test--> red (term (try (throw (throw 1)) (catch b b))) (term 1))

; A handler that throws is out of its own try already.
(test-->> red (term (try (try (throw 1) (catch b (throw (+ b 1)))) (catch c (+ c 10)))) (term 12))

; An exception that nobody catches ends the program, and stays.
(apply-reduction-relation/tag-with-names red (term (+ 1 ((throw 3) (/ 1 0)))))
(apply-reduction-relation red (term (throw 3)))
(apply-reduction-relation/tag-with-names red (term (+ 1 (/ 7 0))))
(test-->> red (term (+ 1 (/ 7 0))) (term (throw "division by zero")))

; The errors are caught as others are, and functions are thrown as numbers are.
(test-->> red (term (try (/ 7 (+ 1 -1)) (catch b 100))) (term 100))
(test-->> red (term (try (/ -7 2) (catch b 100))) (term -3))
(test-->> red (term (try ((+ 1 2) 3) (catch b b))) (term "not a function"))
(test-->> red (term ((try (+ 1 (throw (λ (b) (+ b 1)))) (catch f f)) 5)) (term 6))

; The parameter of a handler shadows an outer one, but not in the part that is tried.
(test-->> red (term ((λ (b) (try (throw (+ b 1)) (catch b (+ b 10)))) 1)) (term 12))

; A variable that nothing binds is stuck, and no exception.
(apply-reduction-relation red (term (try (+ b 1) (catch c 0))))
(test-results)
