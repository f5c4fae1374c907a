QUEENS ; eight queens: all ways to set them, by a search that calls itself
 SET N=8,C=0
 FOR T=1:1:160 DO ROW(1)
 WRITE C,!
 QUIT
ROW(R) ; the queens from this row on
 IF R>N SET C=C+1 QUIT
 NEW X
 FOR X=1:1:N IF '$DATA(A(X)),'$DATA(B(X+R)),'$DATA(D(X-R)) DO PUT(R,X)
 QUIT
PUT(R,X) ; a queen here, and then the other rows
 SET (A(X),B(X+R),D(X-R))=1
 DO ROW(R+1)
 KILL A(X),B(X+R),D(X-R)
 QUIT
