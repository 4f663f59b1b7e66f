; Who overtakes whom: of two messages in one channel the earlier one comes first. Nobody named is needed: the rules are met by the one message
; that stands for all.
(declare-sort Message 0)
(declare-fun sent_before (Message Message) Bool)
(declare-fun comes_before (Message Message) Bool)
(assert (forall ((x Message) (y Message)) (or (not (sent_before x y)) (comes_before x y))))
(assert (forall ((x Message) (y Message)) (or (not (comes_before x y)) (not (comes_before y x)))))
(assert (forall ((x Message)) (not (sent_before x x))))
(check-sat)
