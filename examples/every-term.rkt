#lang racket
; The type system of checked.rkt, with its mistake and without, asked about each term with at most four nodes. Tests that
; are made by chance may miss what goes wrong; among all terms up to a size nothing is missed. The last tests were written by
;     redex terms e 4 < FILE | terms/each FILE '(test-equal (term (sound? @)) #t)'
(require redex)

(define-language B
  (e n b (+ e e) (if e e e) (zero e))
  (n natural)
  (b #t #f)
  (v n b)
  (t num bool)
  (E hole (+ E e) (+ v E) (if E e e) (zero E)))

; The rule for a sum forgets its right part.
(define-judgment-form B
  #:mode (types I O)
  [(types n num)]
  [(types b bool)]
  [(types e_1 num)
   ----------------------- sum
   (types (+ e_1 e_2) num)]
  [(types e_1 bool) (types e_2 t) (types e_3 t)
   -------------------------------------------- if
   (types (if e_1 e_2 e_3) t)]
  [(types e num)
   ---------------------- zero
   (types (zero e) bool)])

(define-judgment-form B
  #:mode (steps I O)
  [(steps (in-hole E (+ n_1 n_2)) (in-hole E ,(+ (term n_1) (term n_2))))]
  [(steps (in-hole E (if #t e_1 e_2)) (in-hole E e_1))]
  [(steps (in-hole E (if #f e_1 e_2)) (in-hole E e_2))]
  [(steps (in-hole E (zero n)) (in-hole E ,(equal? (term n) 0)))])

; A term with a type is a value or takes a step.
(define-metafunction B
  [(sound? v) #t]
  [(sound? e) #t (judgment-holds (steps e e_1))]
  [(sound? e) #f (judgment-holds (types e t))]
  [(sound? e) #t])

; By chance, and then one by one.
(redex-check B e (term (sound? e)))
(test-equal (term (sound? 0)) #t)
(test-equal (term (sound? 1)) #t)
(test-equal (term (sound? #f)) #t)
(test-equal (term (sound? #t)) #t)
(test-equal (term (sound? (+ 0 0))) #t)
(test-equal (term (sound? (+ 0 1))) #t)
(test-equal (term (sound? (+ 0 #f))) #t)
(test-equal (term (sound? (+ 0 #t))) #t)
(test-equal (term (sound? (+ 1 0))) #t)
(test-equal (term (sound? (+ 1 1))) #t)
(test-equal (term (sound? (+ 1 #f))) #t)
(test-equal (term (sound? (+ 1 #t))) #t)
(test-equal (term (sound? (+ #f 0))) #t)
(test-equal (term (sound? (+ #f 1))) #t)
(test-equal (term (sound? (+ #f #f))) #t)
(test-equal (term (sound? (+ #f #t))) #t)
(test-equal (term (sound? (+ #t 0))) #t)
(test-equal (term (sound? (+ #t 1))) #t)
(test-equal (term (sound? (+ #t #f))) #t)
(test-equal (term (sound? (+ #t #t))) #t)
(test-equal (term (sound? (zero 0))) #t)
(test-equal (term (sound? (zero 1))) #t)
(test-equal (term (sound? (zero #f))) #t)
(test-equal (term (sound? (zero #t))) #t)
(test-results)
