#lang racket
(require redex)
; Walks. `stepper` starts from a term and takes the steps that the words after `step` choose, each by its number. This file is
; run with the words in stepping.words, as `./redex step 2 2 1`: the second step, the second again, then the first. With the
; word `run` it would show each term to start from, with its steps, and take none. In Redex `stepper` opens a window.
(define-language Lambda
  (e x number (λ (x) e) (e e))
  (x variable-not-otherwise-mentioned))

; Arguments are closed here, so nothing can be caught.
(define-metafunction Lambda
  subst : any x e -> any
  [(subst x x e) e]
  [(subst (λ (x) e_1) x e_2) (λ (x) e_1)]
  [(subst (any ...) x e) ((subst any x e) ...)]
  [(subst any x e) any])

; A step may be taken anywhere in a term.
(define beta
  (reduction-relation Lambda
    (--> ((λ (x) e_1) e_2) (subst e_1 x e_2) beta)))
(define red (compatible-closure beta Lambda e))

; The argument steps to itself, and is never needed. The steps are numbered in ascending order of their terms: 1 drops the
; argument, 2 takes a step in it. After two steps in it the walk is where it began; then the argument is dropped.
(stepper red (term ((λ (a) 1) ((λ (b) (b b)) (λ (b) (b b))))))

; Each stepper takes all choices. Here the argument is copied first, and then each copy has to be computed. The last term is
; shown with its step, which is not taken, since there is no further choice.
(stepper red (term ((λ (a) (a a)) ((λ (b) b) (λ (c) c)))))

; A choice that there is not ends the walk.
(stepper red (term ((λ (b) b) 5)))
