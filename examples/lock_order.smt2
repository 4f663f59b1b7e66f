; The words for a rule on locks: a thread takes a lock only before those that stand behind it in the order.
; Constants and predicates may come in any order. The model's lines follow the declarations, and the elements follow
; the constants alone.
(declare-sort Lock 0)
(declare-fun before (Lock Lock) Bool) ; the order
(declare-const disk Lock)
(declare-const cache Lock)
(declare-fun held (Lock) Bool) ; the locks that the thread has
(declare-const log Lock)
(check-sat)
