FIBF ; a function that calls itself twice
 WRITE $$FIB(30),!
 QUIT
FIB(N) ; the number of Fibonacci at N
 IF N<2 QUIT N
 QUIT $$FIB(N-1)+$$FIB(N-2)
