LONGS ; texts of 30,000 bytes: copied, looked through, joined and cut
 SET L=""
 FOR I=1:1:3000 SET L=L_"ABCDEFGHI"_(I#10)
 SET S=0
 FOR R=1:1:12000 FOR Q=1:1:14 DO ROUND
 WRITE S,!
 QUIT
ROUND ; one of them
 SET A=L,B=$EXTRACT(A,R,R+15000),S=S+$LENGTH(B)
 SET C=B_$EXTRACT(A,1,14000),S=S+$FIND(C,"I"_(R#10)_"AB")
 SET:C=A S=S+1
 SET:C'=A S=S+2#1000003
 QUIT
