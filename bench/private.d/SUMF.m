SUMF ; a function that walks down a tree of subscripts
 FOR I=1:1:30 FOR J=1:1:30 FOR K=1:1:30 SET T(I,J,K)=I*J+K
 SET S=0 FOR R=1:1:20 SET S=S+$$SUM("")#1000003
 WRITE S,!
 QUIT
SUM(P) ; the values below the subscripts of P, which has commas between them
 NEW C,N,L SET N="",C=0,L=$LENGTH(P,",")
 IF P="" FOR  SET N=$ORDER(T(N)) QUIT:N=""  SET C=C+$$SUM(N)
 IF P="" QUIT C
 IF L=1 FOR  SET N=$ORDER(T(P,N)) QUIT:N=""  SET C=C+$$SUM(P_","_N)
 IF L=1 QUIT C
 FOR  SET N=$ORDER(T($PIECE(P,","),$PIECE(P,",",2),N)) QUIT:N=""  SET C=C+T($PIECE(P,","),$PIECE(P,",",2),N)
 QUIT C
