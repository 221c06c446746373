#lang racket
; Arithmetic by host expressions: the factorial, the greatest common divisor, and the greatest of some numbers.
(require redex)

(define-language N
  (n natural))

(define-metafunction N
  [(fact 0) 1]
  [(fact n) ,(* (term n) (term (fact ,(sub1 (term n)))))])

(define-metafunction N
  [(gcd n 0) n]
  [(gcd n_1 n_2) (gcd n_2 ,(remainder (term n_1) (term n_2)))])

(define-metafunction N
  [(greatest n) n]
  [(greatest n_1 n_2 n_3 ...) (greatest n_1 n_3 ...) (side-condition (>= (term n_1) (term n_2)))]
  [(greatest n_1 n_2 n_3 ...) (greatest n_2 n_3 ...)])

(term (fact 20))
(term (gcd 1071 462))
(term (greatest 3 1 4 1 5))

; Host expressions are forms too.
(+ (term (fact 3)) (term (gcd 12 18)) (quotient 7 2))
(and (< 1 2) (not (zero? (term (gcd 4 6)))))

; The integers end at 128 bits, and nothing is divided by zero.
(term (fact 34))
(remainder 7 0)
