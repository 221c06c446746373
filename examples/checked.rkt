#lang racket
; A type system with a mistake, which a property finds: the rule for a sum forgets its right part. A term that has a type is a value or takes a
; step; `redex-check` generates terms until one is neither.
(require redex)

(define-language B
  (e n b (+ e e) (if e e e) (zero e))
  (n natural)
  (b #t #f)
  (v n b)
  (t num bool)
  (E hole (+ E e) (+ v E) (if E e e) (zero E)))

(define-judgment-form B
  #:mode (types I O)
  [(types n num)]
  [(types b bool)]
  [(types e_1 num)
   ----------------------- sum
   (types (+ e_1 e_2) num)]
  [(types e_1 bool)
   (types e_2 t)
   (types e_3 t)
   -------------------------- if
   (types (if e_1 e_2 e_3) t)]
  [(types e num)
   ---------------------- zero
   (types (zero e) bool)])

; The same with the whole rule.
(define-judgment-form B
  #:mode (has-type I O)
  [(has-type n num)]
  [(has-type b bool)]
  [(has-type e_1 num)
   (has-type e_2 num)
   -------------------------- sum
   (has-type (+ e_1 e_2) num)]
  [(has-type e_1 bool)
   (has-type e_2 t)
   (has-type e_3 t)
   ----------------------------- if
   (has-type (if e_1 e_2 e_3) t)]
  [(has-type e num)
   ------------------------- zero
   (has-type (zero e) bool)])

; One step, in a context.
(define-judgment-form B
  #:mode (steps I O)
  [(steps (in-hole E (+ n_1 n_2)) (in-hole E ,(+ (term n_1) (term n_2))))]
  [(steps (in-hole E (if #t e_1 e_2)) (in-hole E e_1))]
  [(steps (in-hole E (if #f e_1 e_2)) (in-hole E e_2))]
  [(steps (in-hole E (zero n)) (in-hole E ,(equal? (term n) 0)))])

(define-metafunction B
  [(goes-on? v) #t]
  [(goes-on? e) #t (judgment-holds (steps e e_1))]
  [(goes-on? e) #f])
(define-metafunction B
  [(typed? e) #t (judgment-holds (types e t))]
  [(typed? e) #f])
(define-metafunction B
  [(has-type? e) #t (judgment-holds (has-type e t))]
  [(has-type? e) #f])

(generate-term B e 3)
(generate-term B e 3 #:seed 1)
(generate-term B (in-hole E (zero n)) 2)

; A counterexample, and its attempt; then the whole rule stands every test.
(redex-check B e (or (not (term (typed? e))) (term (goes-on? e))))
(redex-check B e (or (not (term (has-type? e))) (term (goes-on? e))) #:attempts 2000)
