#lang racket
(require redex)
; Functions of several arguments, primitive operations by a table of their own, and letrec, whose functions know each other.
; An operation that does not take its arguments gives an error, with which the program ends.
(define-language Letrec
  (p e (error any))
  (e x v (e e ...) (o e ...) (if e e e) (letrec ((x f) ...) e))
  (v number boolean f)
  (f (λ (x ...) e))
  (o + - * < zero? not)
  (x variable-not-otherwise-mentioned)
  (E hole (v ... E e ...) (o v ... E e ...) (if E e e)))

(define-metafunction Letrec
  delta : (o v ...) -> any
  [(delta (+ number ...)) (sum number ...)]
  [(delta (- number_1 number_2)) ,(- (term number_1) (term number_2))]
  [(delta (* number_1 number_2)) ,(* (term number_1) (term number_2))]
  [(delta (< number_1 number_2)) ,(< (term number_1) (term number_2))]
  [(delta (zero? number)) ,(zero? (term number))]
  [(delta (not boolean)) ,(not (term boolean))]
  [(delta (o v ...)) (error (o v ...))])

(define-metafunction Letrec
  sum : number ... -> number
  [(sum) 0]
  [(sum number_1 number_2 ...) ,(+ (term number_1) (term (sum number_2 ...)))])

; Values are closed, so nothing can be caught. A letrec binds in its functions and in its body.
(define-metafunction Letrec
  subst : any x v -> any
  [(subst x x v) v]
  [(subst (λ (x_1 ... x x_2 ...) e) x v) (λ (x_1 ... x x_2 ...) e)]
  [(subst (letrec ((x_1 f_1) ... (x f) (x_2 f_2) ...) e) x v) (letrec ((x_1 f_1) ... (x f) (x_2 f_2) ...) e)]
  [(subst (any ...) x v) ((subst any x v) ...)]
  [(subst any x v) any])

(define-metafunction Letrec
  subst* : e (x v) ... -> e
  [(subst* e) e]
  [(subst* e (x_1 v_1) (x_2 v_2) ...) (subst* (subst e x_1 v_1) (x_2 v_2) ...)])

; For each name of a letrec stands its function, with all of the letrec around its body.
(define red
  (reduction-relation Letrec
    #:domain p
    (--> (in-hole E ((λ (x ..._n) e) v ..._n)) (in-hole E (subst* e (x v) ...)) call)
    (--> (in-hole E (if #f e_1 e_2)) (in-hole E e_2) else)
    (--> (in-hole E (if v e_1 e_2)) (in-hole E e_1) then (side-condition (not (equal? (term v) #f))))
    (--> (in-hole E (letrec ((x_1 (λ (x_2 ...) e_2)) ...) e))
         (in-hole E (subst* e (x_1 (λ (x_2 ...) (letrec ((x_1 (λ (x_2 ...) e_2)) ...) e_2))) ...))
         letrec)
    (--> (in-hole E (o v ...)) (in-hole E v_1) delta (where v_1 (delta (o v ...))))
    (--> (in-hole E (o v ...)) (error any) error (where (error any) (delta (o v ...))))))

(term (delta (+ 1 2 3)))
(term (delta (< 1 2)))
(term (delta (- 1)))
(term (subst (letrec ((g (λ (a) (h a)))) (g h)) h 1))
(term (subst (letrec ((g (λ (a) (h a)))) (g h)) g 1))

; One step each.
(apply-reduction-relation/tag-with-names red (term (+ 1 (- 5 3) (* 2 2))))
(apply-reduction-relation/tag-with-names red (term (letrec ((g (λ (a) (g a)))) (g 1))))
(apply-reduction-relation/tag-with-names red (term (* 2 (if (not) 1 2))))
(apply-reduction-relation/tag-with-names red (term ((λ (a b) (a b)) g #t)))

; The factorial, and two functions that ask each other.
(test-->> red
          (term (letrec ((fact (λ (n) (if (zero? n) 1 (* n (fact (- n 1))))))) (fact 5)))
          (term 120))
(test-->> red
          (term (letrec ((even (λ (n) (if (zero? n) #t (odd (- n 1)))))
                         (odd (λ (n) (if (zero? n) #f (even (- n 1))))))
                  (even 7)))
          (term #f))

; A function of two arguments and one of none; the sum of no numbers; what is not false is true.
(test-->> red (term ((λ (a b) (- a b)) (+ 1 2) ((λ () 10)))) (term -7))
(test-->> red (term (if (+) (if (< 2 1) 1 2) 3)) (term 2))

; An inner letrec hides the outer function of its name.
(test-->> red
          (term (letrec ((g (λ (a) (+ a 1)))) (+ (letrec ((g (λ (a) (* a 10)))) (g 5)) (g 5))))
          (term 56))

; Errors end the program; a call with too few arguments is stuck.
(test--> red (term (+ 1 (* 2 #t))) (term (error (* 2 #t))))
(test-->> red (term (letrec ((g (λ (a) (not a)))) (+ 1 (g 2)))) (term (error (not 2))))
(test--> red (term ((λ (a b) a) 1)))
(test-match Letrec p (term (error (not 2))))
(test-no-match Letrec e (term (error (not 2))))
(test-results)
