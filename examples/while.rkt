#lang racket
(require redex)
; A language with assignment, sequences and loops. A program is a store, which says what each variable holds, and a command.
; Contexts say what is next: E in commands, A in arithmetic, B in conditions.
(define-language While
  (p (s c))
  (s ((x number) ...))
  (c skip (x := a) (begin c c ...) (if b c c) (while b c))
  (a number x (+ a a) (- a a) (* a a))
  (b boolean (< a a) (= a a) (not b))
  (E hole (x := A) (begin E c c ...) (if B c c))
  (A hole (+ A a) (+ number A) (- A a) (- number A) (* A a) (* number A))
  (B hole (< A a) (< number A) (= A a) (= number A) (not B))
  (x variable-not-otherwise-mentioned))

; The store in which a variable holds a number: in its old place, or after the others where it is new.
(define-metafunction While
  update : s x number -> s
  [(update ((x_1 number_1) ... (x _) (x_2 number_2) ...) x number)
   ((x_1 number_1) ... (x number) (x_2 number_2) ...)]
  [(update ((x_1 number_1) ...) x number) ((x_1 number_1) ... (x number))])

; The arrow ==> is for the steps that leave the store alone.
(define red
  (reduction-relation While
    #:domain p
    (--> ((name s (_ ... (x number) _ ...)) (in-hole E x)) (s (in-hole E number)) look-up)
    (--> (s (in-hole E (x := number))) ((update s x number) (in-hole E skip)) assign)
    (==> (+ number_1 number_2) ,(+ (term number_1) (term number_2)) add)
    (==> (- number_1 number_2) ,(- (term number_1) (term number_2)) subtract)
    (==> (* number_1 number_2) ,(* (term number_1) (term number_2)) multiply)
    (==> (< number_1 number_2) ,(< (term number_1) (term number_2)) less)
    (==> (= number_1 number_2) ,(= (term number_1) (term number_2)) equal)
    (==> (not boolean) ,(not (term boolean)) not)
    (==> (begin skip c_1 c_2 ...) (begin c_1 c_2 ...) next)
    (==> (begin c) c last)
    (==> (if #t c_1 c_2) c_1 true)
    (==> (if #f c_1 c_2) c_2 false)
    (==> (while b c) (if b (begin c (while b c)) skip) loop)
    with
    [(--> (s (in-hole E from)) (s (in-hole E to))) (==> from to)]))

(term (update ((i 0) (j 1)) i 7))
(term (update ((i 0) (j 1)) k 7))

; One turn of a loop, step by step. There is one step each time.
(apply-reduction-relation/tag-with-names red (term (((i 0)) (while (< i 1) (i := (+ i 1))))))
(apply-reduction-relation/tag-with-names red
  (term (((i 0)) (if (< i 1) (begin (i := (+ i 1)) (while (< i 1) (i := (+ i 1)))) skip))))
(apply-reduction-relation/tag-with-names red (term (((i 0)) (if (< 0 1) (i := 5) skip))))
(apply-reduction-relation/tag-with-names red (term (((i 0)) (if #t (i := 5) skip))))
(apply-reduction-relation/tag-with-names red (term (((i 0)) (begin (i := (+ i 1)) (j := i)))))
(apply-reduction-relation/tag-with-names red (term (((i 0)) (begin (i := 1) (j := i)))))
(apply-reduction-relation/tag-with-names red (term (((i 1)) (begin skip (j := i)))))
(apply-reduction-relation/tag-with-names red (term (((i 1)) (begin (j := i)))))
(apply-reduction-relation/tag-with-names red (term (((i 1)) (j := 1))))

; Whole runs: what counts is the store at the end. The sum of 1 to 3; the greatest common divisor of 12 and 18; six times
; seven by addition.
(test-->> red
          (term (() (begin (i := 0)
                           (sum := 0)
                           (while (< i 3)
                             (begin (i := (+ i 1))
                                    (sum := (+ sum i)))))))
          (term (((i 3) (sum 6)) skip)))
(test-->> red
          (term (((m 12) (k 18))
                 (while (not (= m k))
                   (if (< m k) (k := (- k m)) (m := (- m k))))))
          (term (((m 6) (k 6)) skip)))
(test-->> red
          (term (() (begin (i := 6) (product := 0)
                           (while (< 0 i) (begin (product := (+ product 7)) (i := (- i 1)))))))
          (term (((i 0) (product 42)) skip)))

; A condition that is false at once: the loop is left, and nothing has changed.
(test-->> red (term (((i 9)) (while (< i 3) (i := (+ i 1))))) (term (((i 9)) skip)))

; A variable that the store has not is stuck. This is what was found in the place of the end that was wanted.
(test-->> red (term (((i 1)) (j := (+ i k)))) (term (((i 1) (j 2)) skip)))

; A loop that never ends: the run is ended after 10,000 steps.
(test-->> red (term (() (while #t skip))) (term (() skip)))
(test-results)
