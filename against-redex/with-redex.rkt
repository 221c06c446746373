#lang racket/base
; What a file may speak of: all of Racket and of Redex, which its own definitions may shadow.
(require racket redex/reduction-semantics)
(provide (all-from-out racket redex/reduction-semantics))
