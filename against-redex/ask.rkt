#lang racket
; Asks PLT Redex what files ask, and writes beside each file what it answers, in the form of this program's transcripts.
;
;     racket against-redex/ask.rkt FILE.rkt ..      writes FILE.got beside each
;
; A file becomes a module in which each query is a function that makes the lines of its answer. `compare` tells what
; has to be left out of the comparison.
(require racket/runtime-path redex/reduction-semantics (only-in "with-redex.rkt"))
(define-runtime-path language "with-redex.rkt")
(define-namespace-anchor here)

; ---- texts

(define (quoted text)
  (define escapes (hash #\" "\\\"" #\\ "\\\\" #\newline "\\n" #\tab "\\t" #\return "\\r"))
  (string-append "\"" (string-append* (for/list ([c text]) (hash-ref escapes c (string c)))) "\""))

(define (shown term)
  (match term
    [(? list?) (format "(~a)" (string-join (map shown term) " "))]
    [(? string?) (quoted term)]
    [#t "#t"]
    [#f "#f"]
    [(or (? symbol?) (? number?)) (~a term)]
    [_ "hole"]))

; The name of a case: as it is where it is spelled like a symbol, else as a string.
(define (shown-name name)
  (define (spelled-like-a-symbol? text)
    (with-handlers ([exn:fail? (const #f)])
      (equal? (port->list read (open-input-string text)) (list (string->symbol text)))))
  (cond
    [(not name) "-"]
    [(spelled-like-a-symbol? (~a name)) (~a name)]
    [else (quoted (~a name))]))

(define (shown-bindings bindings)
  (define pairs
    (for/list ([b (sort bindings string<? #:key (compose symbol->string bind-name))])
      (format "~a = ~a" (bind-name b) (shown (bind-exp b)))))
  (if (empty? pairs) "-" (string-join pairs ", ")))

; ---- answers, each a list of lines

(define (listing head items)
  (define different (remove-duplicates items))
  (cons (format "~a ~a" head (length different)) (map (curry string-append "  ") different)))

(define (terms head found) (listing head (map shown found)))

(define (matches found)
  (listing "match" (map (compose shown-bindings match-bindings) (or found '()))))

(define (steps found) (listing "steps" (map step-line found)))

(define (step-line step) (format "~a ~a" (shown-name (first step)) (shown (second step))))

(define (walk term found)
  (cons (format "step 0 ~a" (shown term)) (rest (listing "" (map step-line found)))))

; The names `a-context` and `a-part` stand round the pattern that a query asks for.
(define (splits found)
  (define (line match)
    (define-values (outer own)
      (partition (λ (b) (memq (bind-name b) '(a-context a-part))) (match-bindings match)))
    (define (value name) (shown (bind-exp (findf (λ (b) (eq? (bind-name b) name)) outer))))
    (format "~a is ~a with ~a" (value 'a-context) (value 'a-part) (shown-bindings own)))
  (listing "splits" (map line (or found '()))))

(define passed 0)
(define failed 0)

(define (test passes?)
  (if passes? (set! passed (add1 passed)) (set! failed (add1 failed)))
  (list (if passes? "pass" "fail")))

(define (test-terms found wanted)
  (define-values (got want) (values (map shown found) (map shown wanted)))
  (define same? (set=? got want))
  (append (test same?)
          (if same? '() (map (curry string-append "  got ") (remove-duplicates got)))
          (if same? '() (map (curry string-append "  want ") (remove-duplicates want)))))

(define (results)
  (begin0
    (list (format "tests ~a passed ~a failed ~a" (+ passed failed) passed failed))
    (set! passed 0)
    (set! failed 0)))

; ---- forms

(define definitions
  '(define define-language define-extended-language define-metafunction define-judgment-form))

(define (test-form? form)
  (match form
    [(list head _ ...)
     (memq head '(test-equal test--> test-->> test-match test-no-match test-judgment-holds))]
    [_ #f]))

; The expression that makes the answer's lines, or nothing where the form asks nothing. Its free names are those of
; `answers`, which no file has.
(define (asked form)
  (match form
    [(list (or 'require 'provide) _ ...) ''()]
    [(list head _ ...) #:when (memq head definitions) #f]
    [`(redex-match ,l ,p ,h) `(make:matches (redex-match ,l ,p ,h))]
    [`(redex-match? ,l ,p ,h) `(list (if (redex-match? ,l ,p ,h) "matches #t" "matches #f"))]
    [`(redex-decompose ,l ,p ,h)
     `(make:splits (redex-match ,l (in-hole (name a-context ,p) (name a-part _)) ,h))]
    [`(judgment-holds ,j) `(list (if (judgment-holds ,j) "holds #t" "holds #f"))]
    [`(judgment-holds ,j ,t) `(make:terms "answers" (judgment-holds ,j ,t))]
    [`(apply-reduction-relation ,r ,h) `(make:terms "reducts" (apply-reduction-relation ,r ,h))]
    [`(apply-reduction-relation/tag-with-names ,r ,h)
     `(make:steps (apply-reduction-relation/tag-with-names ,r ,h))]
    [`(stepper ,r ,h)
     `(let ([t ,h]) (make:walk t (apply-reduction-relation/tag-with-names ,r t)))]
    [`(test-equal ,g ,h) `(make:test-terms (list ,g) (list ,h))]
    [`(test--> ,r ,h ,hs ...) `(make:test-terms (apply-reduction-relation ,r ,h) (list ,@hs))]
    [`(test-->> ,r ,h ,hs ...) `(make:test-terms (apply-reduction-relation* ,r ,h) (list ,@hs))]
    [`(test-match ,l ,p ,h) `(make:test (redex-match? ,l ,p ,h))]
    [`(test-no-match ,l ,p ,h) `(make:test (not (redex-match? ,l ,p ,h)))]
    [`(test-judgment-holds ,j) `(make:test (judgment-holds ,j))]
    ['(test-results) '(make:results)]
    [_ `(list (string-append "value " (make:shown ,form)))]))

(define answers
  (hash 'make:matches matches 'make:splits splits 'make:terms terms 'make:steps steps 'make:walk walk
        'make:test test 'make:test-terms test-terms 'make:results results 'make:shown shown))

(define (data-of file)
  (define text (regexp-replace #rx"^#lang racket[^\n]*" (file->string file) ""))
  (port->list read (open-input-string text)))

; The forms as a module, which provides the queries in their order, each a function of `answers`.
(define (module-of forms)
  (define names (hash-keys answers))
  (define-values (asking defining) (partition asked forms))
  `(module asked (file ,(path->string language))
     ,@defining
     (define queries
       (list ,@(for/list ([form asking])
                 `(λ (answers)
                    (match-define (list ,@names) (map (λ (name) (hash-ref answers name)) ',names))
                    ,(asked form)))))
     (provide queries)))

; ---- one file

; What is made within so many seconds, or a line that says why there is nothing.
(define (within seconds word make)
  (define (why e) (string-replace (if (exn? e) (exn-message e) (~a e)) "\n" " "))
  (define made #f)
  (define worker
    (thread
     (λ ()
       (set! made (with-handlers ([(const #t) (λ (e) (list (format "~a ~a" word (why e))))]) (make))))))
  (unless (sync/timeout seconds worker) (kill-thread worker))
  (or made (list (format "~a after ~a seconds" word seconds))))

(define (queries-of forms)
  (define own (make-base-namespace))
  (namespace-attach-module (namespace-anchor->empty-namespace here) language own)
  (define name (make-resolved-module-path (string->uninterned-symbol "asked")))
  (define made (module-of forms))
  (parameterize ([current-namespace own])
    (parameterize ([current-module-declare-name name]) (eval made))
    (dynamic-require name 'queries)))

(define (answer file)
  (results)
  (define (asking)
    (define forms (data-of file))
    (map cons (filter asked forms) (queries-of forms)))
  (match (within 60 "refused" asking)
    [(list (cons forms queries) ...)
     (append*
      (for/list ([form forms] [query queries])
        (define lines (within 60 "fault" (λ () (query answers))))
        (when (and (test-form? form) (string-prefix? (first lines) "fault"))
          (set! failed (add1 failed)))
        lines))]
    [refused refused]))

(for ([file (current-command-line-arguments)])
  (display-lines-to-file (answer file) (path-replace-extension file ".got") #:exists 'replace))
