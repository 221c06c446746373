#lang racket
(require redex)
; Call by need: an argument waits in a let, is computed where it is first asked for, and stays there for the next time. The
; let forms are made by the rules; a program has none.
(define-language Need
  (e x v (e e) (+ e e) (let (x e) e))
  (v number (λ (x) e))
  (a v (let (x e) a))
  ; The last alternative goes to what a variable stands for, where this variable is asked for next.
  (E hole (E e) (+ E e) (+ v E) (let (x e) E) (let (x_1 E) (in-hole E_1 x_1)))
  (F (hole e) (+ hole e) (+ v hole))
  (x variable-not-otherwise-mentioned))

(define-metafunction Need
  rename : e x x -> e
  [(rename x_1 x_1 x_2) x_2]
  [(rename x x_1 x_2) x]
  [(rename number x_1 x_2) number]
  [(rename (λ (x_1) e) x_1 x_2) (λ (x_1) e)]
  [(rename (λ (x) e) x_1 x_2) (λ (x) (rename e x_1 x_2))]
  [(rename (+ e_1 e_2) x_1 x_2) (+ (rename e_1 x_1 x_2) (rename e_2 x_1 x_2))]
  [(rename (e_1 e_2) x_1 x_2) ((rename e_1 x_1 x_2) (rename e_2 x_1 x_2))])

; Each let gets a name that stands nowhere else, so none catches the name of another.
(define need
  (reduction-relation Need
    (==> ((λ (x) e_1) e_2) (let (y e_2) (rename e_1 x y)) call (fresh y))
    (==> (+ number_1 number_2) ,(+ (term number_1) (term number_2)) add)
    (==> (let (x v) (in-hole E_1 x)) (let (x v) (in-hole E_1 v)) use)
    (==> (in-hole F (let (x e) a)) (let (x e) (in-hole F a)) lift)
    (==> (let (x_1 (let (x_2 e) a)) (in-hole E_1 x_1)) (let (x_2 e) (let (x_1 a) (in-hole E_1 x_1))) flatten)
    with
    [(--> (in-hole E hence) (in-hole E thence)) (==> hence thence)]))

; What is asked for next: in a sum of two variables the left one, and so what it stands for.
(redex-decompose Need E (term (let (y (+ 1 2)) (+ y y))))

; Each rule by itself.
(apply-reduction-relation/tag-with-names need (term ((λ (b) (+ b b)) (+ 1 2))))
(apply-reduction-relation/tag-with-names need (term (let (y (+ 1 2)) (+ y y))))
(apply-reduction-relation/tag-with-names need (term (let (y 3) (+ y y))))
(apply-reduction-relation/tag-with-names need (term (let (y 3) (+ 3 y))))
(apply-reduction-relation/tag-with-names need (term ((let (y 1) (λ (b) (+ y b))) 2)))
(apply-reduction-relation/tag-with-names need (term (let (y 1) ((λ (b) (+ y b)) 2))))
(apply-reduction-relation/tag-with-names need (term (let (y (let (y1 1) (λ (b) y1))) (y 5))))

; The argument is computed once and used twice, or not at all.
(test-->> need (term ((λ (b) (+ b b)) (+ 1 2))) (term (let (y 3) 6)))
(test-->> need (term ((λ (b) 1) (+ 1 2))) (term (let (y (+ 1 2)) 1)))
(test-->> need (term ((λ (b) 1) ((λ (c) (c c)) (λ (c) (c c))))) (term (let (y ((λ (c) (c c)) (λ (c) (c c)))) 1)))
(test-->> need (term (((λ (b) (λ (c) (+ b c))) 1) 2)) (term (let (y 1) (let (y1 2) 3))))

; A function with a let in it is used twice, and the let is computed once.
(test-->> need
          (term ((λ (f) (+ (f 1) (f 2))) ((λ (c) (λ (b) (+ b c))) (+ 10 20))))
          (term (let (y1 30) (let (y (λ (b) (+ b y1))) (let (y2 1) (let (y3 2) 63))))))

; Answers are where it ends; a variable that no let binds is none.
(redex-match Need a (term (let (y (+ 1 2)) 1)))
(redex-match? Need a (term (let (y 3) (+ y y))))
(test-no-match Need a (term b))
(apply-reduction-relation need (term (let (y 3) (b y))))
(test-results)
