WALK ; $ORDER over a tree of two subscripts, numbers and words
 FOR I=1:1:300 FOR J=1:1:100 SET T(I,J*7#101)=I+J,T("W"_I,"K"_J)=J
 SET S=0
 FOR R=1:1:22 DO ROUND
 WRITE S,!
 QUIT
ROUND ; all nodes, forwards in the one subscript and backwards in the other
 SET I=""
 FOR  SET I=$ORDER(T(I)) QUIT:I=""  SET J="" FOR  SET J=$ORDER(T(I,J),-1) QUIT:J=""  SET S=S+T(I,J)#1000003
 QUIT
