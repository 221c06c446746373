#lang racket
; The lambda calculus with environments: a closure keeps what its variables stand for, and `where` looks a variable up.
(define-language Lambda
  (e x (lambda (x) e) (e e))
  (x variable-not-otherwise-mentioned)
  (c (closure x e r))
  (r ((x c) ...))
  (s c (s s) (run e r))
  (S hole (S s) (c S)))

(define step
  (reduction-relation Lambda
    (--> (in-hole S (run (lambda (x) e) r)) (in-hole S (closure x e r)) close)
    (--> (in-hole S (run (e_1 e_2) r)) (in-hole S ((run e_1 r) (run e_2 r))) apply)
    (--> (in-hole S (run x r)) (in-hole S c) look-up (where (any_1 ... (x c) any_2 ...) r))
    (--> (in-hole S ((closure x e ((x_1 c_1) ...)) c)) (in-hole S (run e ((x c) (x_1 c_1) ...))) call)))

(apply-reduction-relation/tag-with-names step (term (run ((lambda (y) y) (lambda (z) z)) ())))
(apply-reduction-relation/tag-with-names step (term ((run (lambda (y) y) ()) (run (lambda (z) z) ()))))
(apply-reduction-relation/tag-with-names step (term ((closure y y ()) (run (lambda (z) z) ()))))
(apply-reduction-relation/tag-with-names step (term ((closure y y ()) (closure z z ()))))
(apply-reduction-relation/tag-with-names step (term (run y ((y (closure z z ()))))))

; An environment that has a variable twice gives both.
(apply-reduction-relation step (term (run y ((y (closure a a ())) (y (closure b b ()))))))

; A closure takes no step, nor does a variable that stands for nothing.
(apply-reduction-relation step (term (closure z z ())))
(apply-reduction-relation step (term (run y ())))
