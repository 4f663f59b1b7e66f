; An access rule: whoever may change a file may read it, a guest reads nothing, and who isn't a guest is a member. Bob may change the file
; and is a guest all the same.
(declare-sort Person 0)
(declare-const bob Person)
(declare-fun reads (Person) Bool)
(declare-fun changes (Person) Bool)
(declare-fun guest (Person) Bool)
(declare-fun member (Person) Bool)
(assert (forall ((x Person)) (or (not (changes x)) (reads x))))
(assert (forall ((x Person)) (or (not (guest x)) (not (reads x)))))
(assert (forall ((x Person)) (or (guest x) (member x))))
(assert (changes bob))
(assert (guest bob))
(check-sat)
