; The bracket of the definition of e is never closed: its place is told.
(define-language L
  (e (e e) number)
