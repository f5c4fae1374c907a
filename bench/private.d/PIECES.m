PIECES ; $PIECE: a record is built, changed and taken apart
 SET S=0
 FOR I=1:1:90000 DO RECORD(I)
 WRITE S,!
 QUIT
RECORD(I) ; twelve pieces
 NEW R,K
 FOR K=1:1:12 SET $PIECE(R,"^",K)=I*K
 FOR K=2:2:12 SET $PIECE(R,"^",K)=$PIECE(R,"^",K)+1
 FOR K=1:1:12 SET S=S+$PIECE(R,"^",K)#999983
 SET S=S+$LENGTH(R,"^")+$LENGTH($PIECE(R,"^",3,5))
 QUIT
