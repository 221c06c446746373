#lang racket
(require redex)
; Threads that share a cell, and branch on purpose: in each step any thread may be the one that goes on. A program is the
; number in the cell, a lock, and the threads, each a number of its own and the instructions that it still has to do.
(define-language Threads
  (p (number lock thread ...))
  (lock free taken)
  (thread (number instruction ...))
  (instruction load (add number) store acquire release))

; The steps are a judgement, so that other judgements can ask about them. The two ellipses leave the choice of the thread.
(define-judgment-form Threads
  #:mode (steps I O)
  #:contract (steps p p)
  [(steps (number_1 lock thread_1 ... (number_2 load instruction ...) thread_2 ...)
          (number_1 lock thread_1 ... (number_1 instruction ...) thread_2 ...))
   "load"]
  [(steps (number_1 lock thread_1 ... (number_2 (add number_3) instruction ...) thread_2 ...)
          (number_1 lock thread_1 ... (,(+ (term number_2) (term number_3)) instruction ...) thread_2 ...))
   "add"]
  [(steps (number_1 lock thread_1 ... (number_2 store instruction ...) thread_2 ...)
          (number_2 lock thread_1 ... (number_2 instruction ...) thread_2 ...))
   "store"]
  [(steps (number_1 free thread_1 ... (number_2 acquire instruction ...) thread_2 ...)
          (number_1 taken thread_1 ... (number_2 instruction ...) thread_2 ...))
   "acquire"]
  [(steps (number_1 taken thread_1 ... (number_2 release instruction ...) thread_2 ...)
          (number_1 free thread_1 ... (number_2 instruction ...) thread_2 ...))
   "release"])
(define red
  (reduction-relation Threads
    #:domain p
    (--> p_1 p_2 (judgment-holds (steps p_1 p_2)))))

; What the cell can hold when all threads have ended, on whatever way.
(define-judgment-form Threads
  #:mode (ends-with I O)
  #:contract (ends-with p number)
  [(ends-with (number_1 lock (number_2) ...) number_1) "end"]
  [(steps p_1 p_2) (ends-with p_2 number)
   -------------------------------------- "step"
   (ends-with p_1 number)])

; Two threads, each of which may go on: two reducts. A test of one step takes both of them, in any order.
(apply-reduction-relation red (term (0 free (0 load (add 1) store) (0 load (add 1) store))))
(test--> red (term (0 free (0 load store) (5 store)))
         (term (5 free (0 load store) (5)))
         (term (0 free (0 store) (5 store))))

; A run takes one path, so where a term has two different next terms the test ends with a fault. (Redex follows all ways, and
; finds three ends here, of which one was wanted.)
(test-->> red (term (0 free (0 load (add 1) store) (0 load (add 1) store))) (term (2 free (1) (2))))

; The question of all ways is one for a judgement. Where both threads load before one of them stores, an addition is lost.
(judgment-holds (ends-with (0 free (0 load (add 1) store) (0 load (add 1) store)) number) number)

; With a lock around it no addition is lost. A run branches all the same, at its first term, where each thread may be first,
; though all ways lead to one end.
(judgment-holds
  (ends-with (0 free (0 acquire load (add 1) store release) (0 acquire load (add 1) store release)) number)
  number)
(test-->> red (term (0 free (0 acquire load store release) (0 acquire load store release)))
          (term (0 free (0) (0))))

; The fault names the term that has several next terms. Here the run has taken a step before.
(test-->> red (term (0 taken (0 release acquire) (0 acquire))) (term (0 taken (0) (0 acquire))))

; One thread alone has one way, and so have two as long as the lock lets only one of them go on.
(test-->> red (term (3 free (0 load (add 1) store load (add 10)))) (term (4 free (14))))
(test-->> red (term (3 taken (7 store release) (0 acquire load))) (term (7 taken (7) (7))))

; Both wait for a lock that nobody gives back: no step, and no end.
(apply-reduction-relation red (term (0 taken (0 acquire store) (1 acquire store))))
(judgment-holds (ends-with (0 taken (0 acquire store) (1 acquire store)) number))
(test-results)
