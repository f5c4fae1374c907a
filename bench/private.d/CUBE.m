CUBE ; a tree of three subscripts: set, summed up along each of them, and killed
 SET S=0
 FOR R=1:1:12 DO ROUND
 WRITE S,!
 QUIT
ROUND ;
 FOR I=1:1:40 FOR J=1:1:40 FOR K=1:1:40 SET T(I,J,K)=I*J+K
 FOR K=1:1:40 FOR J=1:1:40 FOR I=1:1:40 SET S=T(I,J,K)+S#1000003
 FOR I=1:1:40 FOR J=1:1:40 KILL T(I,J)
 QUIT
