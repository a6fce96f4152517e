(define (domain coin) (:predicates (heads))
(:action flip :effect (oneof (heads) (and))))
