TOWERS ; the towers of Hanoi: calls with four values
 SET C=0,S=0
 DO MOVE(20,1,2,3)
 WRITE C," ",S,!
 QUIT
MOVE(N,A,B,V) ; so many from A to B by way of V
 IF N=0 QUIT
 DO MOVE(N-1,A,V,B)
 SET C=C+1,S=S*3+A-B#10007
 DO MOVE(N-1,V,B,A)
 QUIT
