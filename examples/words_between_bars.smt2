; A tool that writes every word between bars. A word with bars is the same word without them, so `|Node|` and `Node`
; are one sort, and the answer is written without bars. The signs of a symbol may stand in a name.
(|declare-sort| |Node| 0)
(declare-const |n!0| Node)
(declare-const |n!1| |Node|)
(declare-fun |->| (Node |Node|) |Bool|)
(|check-sat|)
