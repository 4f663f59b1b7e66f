; A timetable: lessons begin at an hour, and the hall is free at some hours. A lesson is early where it begins before nine. The first one
; is early, an early lesson ends by nine, and the hall is free at eight.
(set-logic ALL)
(declare-sort Lesson 0)
(declare-const first Lesson)
(declare-fun start (Lesson) Int)
(declare-const free (Array Int Bool))
(define-fun is_early ((l Lesson)) Bool (< (start l) 9))
(assert (! (is_early first) :named begins))
(assert (forall ((l Lesson)) (let ((end (+ (start l) 1))) (=> (is_early l) (<= end 9)))))
(assert (select free 8))
(check-sat)
