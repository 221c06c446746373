#lang racket
; Sums of numbers in unary notation, forwards and backwards: the rules stay, and the mode says what is given.
(require redex)

(define-language N
  (n z (s n)))

; Both summands are given.
(define-judgment-form N
  #:mode (sum I I O)
  #:contract (sum n n n)
  [------------- zero
   (sum z n n)]
  [(sum n_1 n_2 n_3)
   ------------------------- successor
   (sum (s n_1) n_2 (s n_3))])

(judgment-holds (sum (s z) (s (s z)) n) n)
(judgment-holds (sum (s z) (s z) (s (s z))))
(judgment-holds (sum (s z) (s z) (s n)) (one more than n))
(judgment-holds (sum z z (s n)))

; The second summand and the sum are given: differences.
(define-judgment-form N
  #:mode (difference O I I)
  [-------------------- zero
   (difference z n n)]
  [(difference n_1 n_2 n_3)
   -------------------------------- successor
   (difference (s n_1) n_2 (s n_3))])

(judgment-holds (difference n (s z) (s (s (s z)))) n)
(judgment-holds (difference n (s z) z) n)

; The sum is given: all its splits, ascending. Where both summands go by one name they have to be equal.
(define-judgment-form N
  #:mode (splits O O I)
  [---------------- zero
   (splits z n n)]
  [(splits n_1 n_2 n_3)
   ---------------------------- successor
   (splits (s n_1) n_2 (s n_3))])

(judgment-holds (splits n_1 n_2 (s (s (s z)))) (n_1 + n_2))
(judgment-holds (splits n_1 n_2 z) (n_1 + n_2))
(judgment-holds (splits n n (s (s (s (s z))))) (twice n))
(judgment-holds (splits n n (s (s (s z)))))

; A judgement with a judgement as its premise: all ways to write a number as the sum of three.
(define-judgment-form N
  #:mode (thirds O O O I)
  [(splits n_1 n_4 n)
   (splits n_2 n_3 n_4)
   ----------------------
   (thirds n_1 n_2 n_3 n)])

(judgment-holds (thirds n_1 n_2 n_3 (s (s z))) (n_1 n_2 n_3))
(judgment-holds (thirds n n n (s (s (s z)))) n)
