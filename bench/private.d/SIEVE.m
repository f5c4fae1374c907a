SIEVE ; a sieve in a tree of local variables
 SET N=400000,C=0
 FOR I=2:1:N IF '$DATA(P(I)) SET C=C+1 IF I<1000 FOR J=I*I:I:N SET P(J)=1
 WRITE C,!
 QUIT
