SORT ; sorting by a tree: numbers of a generator, with how often each came
 SET X=12345,S=0
 FOR R=1:1:9 DO ROUND
 WRITE S,!
 QUIT
ROUND ; 40,000 numbers in, and out in order
 KILL T
 FOR I=1:1:40000 SET X=X*1103+12347#1000003,T(X)=$GET(T(X))+1
 SET K="",P=0
 FOR  SET K=$ORDER(T(K)) QUIT:K=""  SET P=P+1,S=K*P+S+T(K)#1000003
 QUIT
