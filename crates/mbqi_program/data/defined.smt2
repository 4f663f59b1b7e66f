; A macro and a `let`, which the canonical text has no more.
(declare-fun f (Int) Int)
(define-fun g ((x Int)) Bool (< (f x) 3))
(assert (forall ((y Int)) (let ((z (- y 1))) (g z))))
(check-sat)
