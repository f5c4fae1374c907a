ADDF ; a function that adds one, ten million times
 SET X=0
 FOR I=1:1:10000000 SET X=$$F(X)
 WRITE X,!
 QUIT
F(N) QUIT N+1
