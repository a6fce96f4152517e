(define (problem c) (:domain coin) (:goal (heads)))
