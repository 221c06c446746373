; What contexts are, on small lists.
(define-language L
  (C hole (C any) (any C))
  (D hole (hide-hole (d D)) (f D)))

; A context has one hole of its own. A second hole stands beside the path to it, and the path tells them apart.
(redex-match L (in-hole C 1) (term (1 2)))
(redex-match L (in-hole C hole) (term (hole hole)))

; A name that stands twice asks for equal contexts, so for the same path too.
(redex-match L ((in-hole C a) (in-hole C b)) (term ((a 1) (b 1))))
(redex-match L ((in-hole C a) (in-hole C b)) (term ((a 1) (1 b))))

; A context in a context: the outer one is hole or not, and the inner one is what is left of the way.
(redex-decompose L (in-hole (f hole) C) (term (f (1 2))))

; A list is split where one item splits and all the others match.
(redex-decompose L (f C 3) (term (f (1 2) 3)))
(redex-decompose L (f C 3) (term (f (1 2) 4)))

; Inside hide-hole nothing is split: what stands there is matched as a whole.
(redex-decompose L D (term (f (d 1))))
(redex-match L D (term (f (d hole))))
