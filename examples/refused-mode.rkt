; The mode says how many arguments a judgement has: here the sum is missing.
(define-language N (n z (s n)))
(define-judgment-form N
  #:mode (sum I I O)
  [--- (sum z n)])
