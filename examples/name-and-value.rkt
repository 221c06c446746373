#lang racket
(require redex)
; Call by name and call by value, side by side: what a redex is (beta-n and beta-v), where it may stand (anywhere, by the
; compatible closure), and which one is next (by evaluation contexts). A variable is primed, as (y ^), where a substitution
; would catch it.
(define-language Lambda
  (e v (e e))
  (v x number (λ (x) e))
  (x variable-not-otherwise-mentioned (x ^))
  (N hole (N e))
  (V hole (V e) (v V)))

(define-metafunction Lambda
  free : e -> (x ...)
  [(free x) (x)]
  [(free number) ()]
  [(free (λ (x) e)) (without x (free e))]
  [(free (e_1 e_2)) (x_1 ... x_2 ...)
   (where (x_1 ...) (free e_1))
   (where (x_2 ...) (free e_2))])

(define-metafunction Lambda
  without : x (x ...) -> (x ...)
  [(without x ()) ()]
  [(without x (x x_1 ...)) (without x (x_1 ...))]
  [(without x (x_1 x_2 ...)) (x_1 x_3 ...)
   (where (x_3 ...) (without x (x_2 ...)))])

(define-metafunction Lambda
  in? : x (x ...) -> boolean
  [(in? x (_ ... x _ ...)) #t]
  [(in? x _) #f])

; The first of x, (x ^), ((x ^) ^) and so on that is none of the others.
(define-metafunction Lambda
  unlike : x (x ...) -> x
  [(unlike x (x_1 ...)) (unlike (x ^) (x_1 ...))
   (side-condition (term (in? x (x_1 ...))))]
  [(unlike x _) x])

(define-metafunction Lambda
  subst : e x e -> e
  [(subst x x e) e]
  [(subst x_1 x_2 e) x_1]
  [(subst number x e) number]
  [(subst (e_1 e_2) x e_3) ((subst e_1 x e_3) (subst e_2 x e_3))]
  [(subst (λ (x) e_1) x e_2) (λ (x) e_1)]
  [(subst (λ (x_1) e_1) x_2 e_2) (λ (x_1) (subst e_1 x_2 e_2))
   (side-condition (not (term (in? x_1 (free e_2)))))]
  [(subst (λ (x_1) e_1) x_2 e_2) (λ (x_3) (subst (subst e_1 x_1 x_3) x_2 e_2))
   (where x_3 (unlike x_1 (free ((e_1 e_2) (x_1 x_2)))))])

(define beta-n
  (reduction-relation Lambda
    (--> ((λ (x) e_1) e_2) (subst e_1 x e_2) beta-n)))
(define beta-v
  (reduction-relation Lambda
    (--> ((λ (x) e) v) (subst e x v) beta-v)))
(define anywhere-n (compatible-closure beta-n Lambda e))
(define anywhere-v (compatible-closure beta-v Lambda e))
(define by-name (context-closure beta-n Lambda N))
(define by-value (context-closure beta-v Lambda V))

; Substitution: nothing is caught; y would be, so the parameter is renamed; the name that it gets first would be caught too,
; and so the inner parameter is renamed in its turn; the inner variable is another one.
(term (free (λ (y) ((x y) (x z)))))
(term (subst (λ (y) (x y)) x 5))
(term (subst (λ (y) (x y)) x y))
(term (subst (λ (y) (λ ((y ^)) (x (y (y ^))))) x y))
(test-equal (term (subst (λ (x) (x y)) x 5)) (term (λ (x) (x y))))

; An argument that never ends: call by name drops it, call by value keeps it busy, and anywhere does both.
(apply-reduction-relation/tag-with-names by-name (term ((λ (a) 1) ((λ (b) (b b)) (λ (b) (b b))))))
(apply-reduction-relation/tag-with-names by-value (term ((λ (a) 1) ((λ (b) (b b)) (λ (b) (b b))))))
(apply-reduction-relation/tag-with-names anywhere-n (term ((λ (a) 1) ((λ (b) (b b)) (λ (b) (b b))))))

; The two ways to begin with this term meet again.
(test--> anywhere-n (term ((λ (a) (a a)) ((λ (b) b) c)))
         (term (((λ (b) b) c) ((λ (b) b) c)))
         (term ((λ (a) (a a)) c)))
(test--> anywhere-v (term ((λ (a) (a a)) ((λ (b) b) c))) (term ((λ (a) (a a)) c)))
(test-->> anywhere-v (term ((λ (a) (a a)) ((λ (b) b) c))) (term (c c)))
(test-->> by-name (term ((λ (a) (a a)) ((λ (b) b) c))) (term (c ((λ (b) b) c))))

; In a function a step is taken by the closure alone, and there variables meet.
(test-->> by-value (term (λ (y) ((λ (f) (λ (y) (f y))) y))) (term (λ (y) ((λ (f) (λ (y) (f y))) y))))
(test-->> anywhere-v (term (λ (y) ((λ (f) (λ (y) (f y))) y))) (term (λ (y) (λ ((y ^)) (y (y ^))))))

; Each strategy has one next redex.
(redex-match Lambda (in-hole N ((λ (x) e_1) e_2)) (term (((λ (a) a) (λ (b) b)) ((λ (c) c) 1))))
(redex-match Lambda (in-hole V ((λ (x) e) v)) (term ((λ (b) b) ((λ (c) c) 1))))
(redex-match? Lambda (in-hole N ((λ (x) e_1) e_2)) (term (a ((λ (c) c) 1))))
(test-results)
