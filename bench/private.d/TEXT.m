TEXT ; texts that are built by joining, and read byte by byte
 SET S=0
 FOR T=1:1:1600 DO ROUND
 WRITE S,!
 QUIT
ROUND ; builds a text of 6,000 bytes, and sums up its bytes
 SET X=""
 FOR I=1:1:2000 SET X=X_$CHAR(I#26+65)_"-"_(I#10)
 FOR I=1:3:$LENGTH(X) SET S=$ASCII($EXTRACT(X,I))+S IF $EXTRACT(X,I,I+1)="Q-" SET S=S+1
 QUIT
