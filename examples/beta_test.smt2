; A beta test: no user sees the new page unless the test runs. Ann sees it.
(declare-sort User 0)
(declare-const ann User)
(declare-fun beta () Bool)
(declare-fun sees (User) Bool)
(assert (forall ((x User)) (or beta (not (sees x)))))
(assert (sees ann))
(check-sat)
