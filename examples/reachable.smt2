; A frame of reachable states: the start is reachable, and so is what a step leads to from there. The error isn't, which a model shows: no
; steps lead to it.
(declare-sort State 0)
(declare-const start State)
(declare-const working State)
(declare-const error State)
(declare-fun step (State State) Bool)
(declare-fun reachable (State) Bool)
(assert (reachable start))
(assert (forall ((s State) (t State)) (or (not (reachable s)) (not (step s t)) (reachable t))))
(assert (step start working))
(assert (step working start))
(assert (not (reachable error)))
(check-sat)
