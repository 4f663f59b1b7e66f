; A dinner: three guests have a name, and others may come.
; The question is whether these words can be used together at all. The model gives each named guest an element of
; the sort, and one more element to stand for every guest without a name.
(declare-sort Guest 0)
(declare-const ann Guest)
(declare-const bea Guest)
(declare-const carl Guest)

; (beside x y): x sits beside y. (hosts x): x is a host.
(declare-fun beside (Guest Guest) Bool)
(declare-fun hosts (Guest) Bool)
(check-sat)
