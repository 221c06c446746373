#lang racket
; Ellipses: `p ...` in a list stands for any number of items that match p. Here they give functions several
; arguments, and `let` several variables.
(define-language Lambda
  (e (e e ...) (let ([x e] ...) e) x v)
  (v (lambda (x ...) e) number)
  (x variable-not-otherwise-mentioned)
  (E hole (v ... E e ...)))

; A name under an ellipsis stands for a sequence, which is written in square brackets.
(redex-match Lambda (let ([x e_1] ...) e_2) (term (let ([a 1] [b (f 2)]) (g a b))))

; Any number of items may be none.
(redex-match Lambda (let ([x e_1] ...) e_2) (term (let () 5)))

; Under two ellipses it stands for a sequence of sequences.
(redex-match Lambda ((lambda (x ...) e) ...) (term ((lambda (a b) a) (lambda () 1))))

; An ellipsis with a name, as ..._n, binds how many items there are. Twice the same name asks for as many:
; a call is right where it has an argument for each variable.
(redex-match Lambda ((lambda (x ..._n) e) v ..._n) (term ((lambda (a b) b) 1 2)))
(redex-match Lambda ((lambda (x ..._n) e) v ..._n) (term ((lambda (a b) b) 1)))

; Several ellipses in a list share its items in each way that fits, and each way is an answer.
(redex-match Lambda (let ([x_1 e_1] ... [x_2 e_2] [x_3 e_3] ...) x_2) (term (let ([a 1] [b 2] [a 3]) a)))

; What binds no name tells no ways apart: here the answers are the variables that stand twice.
(redex-match Lambda (lambda (_ ... x _ ... x _ ...) e) (term (lambda (a b a c b) 1)))

; Contexts that compute arguments from left to right: values stand before the hole, expressions after it.
(redex-decompose Lambda (v_1 ... hole e_1 ...) (term (1 (f 2) 3)))

; The call that is to be computed next. The one after it has to wait.
(redex-match Lambda (in-hole E ((lambda (x ..._n) e) v ..._n))
  (term ((lambda (a b) b) ((lambda () 1)) ((lambda (c) c) 2))))
