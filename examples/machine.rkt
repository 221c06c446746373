#lang racket
; The instructions of a machine with a stack. A label is a symbol that begins with L.
(define-language Machine
  (instruction (push constant) add (jump label) (call string))
  (constant integer boolean)
  (label (variable-prefix L)))

(redex-match? Machine instruction (term (push #t)))
(redex-match? Machine instruction (term (jump L1)))
(redex-match? Machine instruction (term (jump there)))

; Two instructions, one after the other.
(redex-match Machine (instruction_1 instruction_2) (term ((push 1) add)))

; What follows a push, whatever was pushed.
(redex-match Machine ((push _) instruction) (term ((push 1) (call "print"))))

; A name for the whole, beside the names of its parts.
(redex-match Machine (name program (instruction_1 instruction_1)) (term (add add)))

; Both alternatives of this nonterminal match 1. The one binding is listed once.
(define-language Numbers
  (n natural integer))
(redex-match Numbers n_1 (term 1))
(redex-match Numbers n_1 (term -1))
