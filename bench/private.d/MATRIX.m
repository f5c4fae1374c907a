MATRIX ; a product of two matrices in trees of two subscripts
 SET N=130,S=0
 FOR I=1:1:N FOR J=1:1:N SET A(I,J)=I*J#17-8,B(I,J)=I+J#13-6
 FOR I=1:1:N FOR J=1:1:N DO CELL
 FOR I=1:1:N FOR J=1:1:N SET S=S*3+C(I,J)#1000003
 WRITE S,!
 QUIT
CELL ;
 NEW K,T
 SET T=0
 FOR K=1:1:N SET T=A(I,K)*B(K,J)+T
 SET C(I,J)=T
 QUIT
