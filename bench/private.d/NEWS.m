NEWS ; calls without values that put many variables aside
 SET S=0,A=1,B=2,C=3,D=4,E=5
 FOR I=1:1:650000 DO OUTER
 WRITE S,A,B,C,D,E,!
 QUIT
OUTER ;
 NEW A,B,C
 SET A=I,B=A+1,C=B*2
 DO INNER
 SET S=S+A+B+C#1000003
 QUIT
INNER ;
 NEW A,D,E
 SET A=C-B,D=A*A,E=D#11
 SET S=S+E
 QUIT
