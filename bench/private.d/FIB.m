FIB ; a call that calls itself twice, with a value and a NEW
 DO TERM(30)
 WRITE R,!
 QUIT
TERM(N) ; R becomes the number of Fibonacci at N
 IF N<2 SET R=N QUIT
 NEW A
 DO TERM(N-1)
 SET A=R
 DO TERM(N-2)
 SET R=R+A
 QUIT
