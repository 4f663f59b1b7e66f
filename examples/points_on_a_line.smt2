; The words of a small geometry: points, one of which has a name, and a predicate of three places.
(declare-sort Point 0)
(declare-const origin Point)
(declare-fun between (Point Point Point) Bool) ; the second lies between the other two
(check-sat)
