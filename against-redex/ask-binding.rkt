#lang racket
; Asks PLT Redex about alpha equivalence and substitution under binding forms.
;
;     racket against-redex/ask-binding.rkt < QUESTIONS
;
; Each question is a list: `(alike t u answer)`, with what this program answers, or `(put t x v u)`, where u is the term that it
; makes of t with v put for x. A question that Redex answers otherwise is written; substitutions are compared up to the names
; that are bound, since each chooses its own. The last line counts them.
(require redex/reduction-semantics)

(define-language L
  (e x n (λ (x) e) (lam (x ...) e) (let x e e) (e e ...))
  (n number)
  (x variable-not-otherwise-mentioned)
  #:binding-forms
  (λ (x) e #:refers-to x)
  (lam (x ...) e #:refers-to (shadow x ...))
  (let x e_1 e_2 #:refers-to x))

(define (substituted t x v)
  (parameterize ([default-language L])
    (term (substitute ,t ,x ,v))))

(define (is-alike? question)
  (match question
    [`(alike ,t ,u ,answer) (equal? (alpha-equivalent? L t u) answer)]
    [`(put ,t ,x ,v ,u) (alpha-equivalent? L (substituted t x v) u)]))

(define questions (port->list read))
(define others (filter-not is-alike? questions))
(for ([question others]) (printf "~s\n" question))
(printf "~a questions, ~a answered otherwise\n" (length questions) (length others))
