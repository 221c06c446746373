#lang racket
(require redex)
; The two surprises that hurt most. The first: a symbol that nothing binds stands for itself. So a name that is misspelled is
; mostly no fault; it shows as a symbol in a result, or as an answer that is missing. Lines with a misspelled name end in `<--`.
(define-language Sums
  (e number (+ e e) (twice e))
  (E hole (+ E e) (+ number E) (twice E)))
(define-metafunction Sums
  double : number -> number
  [(double number) ,(* 2 (term number))])

; First as it should be: (twice 1) is computed, then the sum.
(define right
  (reduction-relation Sums
    (--> (in-hole E (+ number_1 number_2)) (in-hole E ,(+ (term number_1) (term number_2))) add)
    (--> (in-hole E (twice number)) (in-hole E (double number)) twice)))
(apply-reduction-relation/tag-with-names right (term (+ (twice 1) 5)))
(test-->> right (term (+ (twice 1) 5)) (term 7))

; In a template: number1 is not number_1 but a symbol, and goes into the result, as number_7 would. The run rests there.
(define a-name
  (reduction-relation Sums
    (--> (in-hole E (twice number_1)) (in-hole E (+ number_1 number1)) twice))) ; <--
(apply-reduction-relation/tag-with-names a-name (term (+ (twice 1) 5)))
(test-->> a-name (term (twice 1)) (term (+ 1 1)))

; A call of what is no metafunction is a list.
(define a-call
  (reduction-relation Sums
    (--> (in-hole E (twice number)) (in-hole E (duoble number)) twice))) ; <--
(apply-reduction-relation/tag-with-names a-call (term (+ (twice 1) 5)))

; The context is E. Nothing binds e, and the symbol e is no context: this one is told.
(define a-context
  (reduction-relation Sums
    (--> (in-hole E (twice number)) (in-hole e (double number)) twice))) ; <--
(apply-reduction-relation/tag-with-names a-context (term (+ (twice 1) 5)))

; In a pattern: no term of e has a hole, so (in-hole e ...) matches nothing (Redex refuses this one). And num is no nonterminal
; but a symbol, which is not 1. Each case should have made the step to (+ 2 5), and the query the match number = 1.
(define a-pattern
  (reduction-relation Sums
    (--> (in-hole e (twice number)) (in-hole e (double number)) context) ; <--
    (--> (in-hole E (twice num)) (in-hole E (double num)) number))) ; <--
(apply-reduction-relation/tag-with-names a-pattern (term (+ (twice 1) 5)))
(redex-match Sums (twice num) (term (twice 1))) ; <--
(redex-match Sums (twice number) (term (twice 1)))

; In a side condition: number1 is a symbol again, and equal to no number. One would have expected the step `same` and no other.
(define a-condition
  (reduction-relation Sums
    (--> (+ number_1 number_2) (twice number_1) same
         (side-condition (equal? (term number1) (term number_2)))) ; <--
    (--> (+ number_1 number_2) (+ number_2 number_1) swap
         (side-condition (not (equal? (term number1) (term number_2))))))) ; <--
(apply-reduction-relation/tag-with-names a-condition (term (+ 3 3)))

; In the input of a premise: the judgement is asked about the symbol e2, of which no rule says anything. One would have
; expected the answer 3.
(define-judgment-form Sums
  #:mode (evaluates I O)
  [(evaluates number number)]
  [(evaluates e_1 number_1)
   (evaluates e2 number_2) ; <--
   ------------------------------------------------------------
   (evaluates (+ e_1 e_2) ,(+ (term number_1) (term number_2)))])
(judgment-holds (evaluates (+ 1 2) number) number)

; In an output: the symbol e_3 is what the second rule gives, in the place of 1 (Redex refuses this rule). The first query asks
; for outputs that are an e, so e_3 is none of its answers; the second one shows it.
(define-judgment-form Sums
  #:mode (first-part I O)
  [(first-part e e)]
  [(first-part e_1 e)
   ----------------------------
   (first-part (+ e_1 e_2) e_3)]) ; <--
(judgment-holds (first-part (+ 1 2) e) e)
(judgment-holds (first-part (+ 1 2) any) any)

; What is told, as a refusal of the file: a suffix after what is no nonterminal, as in the pattern num_1 (S5), and names of
; languages (S2), of relations, and of judgements in premises (S8).

; The second surprise: test-->> takes one path, where Redex takes all. It ends with a fault at a term that has two different next
; terms, though here both ways lead to 6. By contexts that leave one way at each term it passes.
(define rules
  (reduction-relation Sums
    (--> (+ number_1 number_2) ,(+ (term number_1) (term number_2)) add)
    (--> (twice number) (double number) twice)))
(define anywhere (compatible-closure rules Sums e))
(define in-order (context-closure rules Sums E))
(apply-reduction-relation anywhere (term (+ (twice 1) (twice 2))))
(test-->> anywhere (term (+ (twice 1) (twice 2))) (term 6))
(test-->> in-order (term (+ (twice 1) (twice 2))) (term 6))
(test-results)
