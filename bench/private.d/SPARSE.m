SPARSE ; a tree of keys that lie far apart, set, looked up and counted in order
 SET S=0,X=1
 FOR R=1:1:3 DO ROUND
 WRITE S,!
 QUIT
ROUND ; 40,000 numbers, and as many words
 KILL T
 FOR I=1:1:40000 SET X=X*7919+104729#1000000007,T(X)=I,T("K"_X)=X
 FOR I=1:1:40000 SET X=X*7919+104729#1000000007 IF $DATA(T(X#40000)) SET S=S+1
 SET K="" FOR  SET K=$ORDER(T(K)) QUIT:K=""  SET S=S+1#1000003
 QUIT
