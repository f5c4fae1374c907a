PAGES ; texts of 200 bytes: kept in a tree, changed, compared, joined and taken apart
 SET L="",S=0
 FOR I=1:1:20 SET L=L_"0123456789"
 FOR R=1:1:8000 DO ROUND
 WRITE S,!
 QUIT
ROUND ; one hundred of them
 FOR I=1:1:100 SET P(I)=$EXTRACT(L,1,100)_I_$EXTRACT(L,I,I+95)
 FOR I=2:1:100 IF P(I)]P(I-1) SET S=S+1
 FOR I=1:1:100 SET X=P(I),Y=$EXTRACT(X,90,110),S=S+$LENGTH(X)+$ASCII(Y,12)#1000003
 QUIT
