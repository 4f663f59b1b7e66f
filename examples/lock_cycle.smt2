; A lock order: `before` is an order that goes round nowhere. One thread takes the log while it holds the disk, and another one the disk
; while it holds the log.
(declare-sort Lock 0)
(declare-const disk Lock)
(declare-const log Lock)
(declare-fun before (Lock Lock) Bool)
(assert (forall ((x Lock) (y Lock) (z Lock)) (or (not (before x y)) (not (before y z)) (before x z))))
(assert (forall ((x Lock)) (not (before x x))))
(assert (before disk log))
(assert (before log disk))
(check-sat)
