; No message has a name here, and yet there is one: no sort of SMT-LIB is empty.
; The script doesn't ask, and is decided all the same.
(declare-sort Message 0)
(declare-fun sent (Message) Bool)
(declare-fun answers (Message Message) Bool)
