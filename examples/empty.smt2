; The empty question: nothing is declared, and nothing is asserted. The answer is a model of nothing.
(check-sat)
