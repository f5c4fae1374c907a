FACT ; a function that calls itself, in the middle of an expression
 SET S=0
 FOR I=1:1:20000 SET S=S+$$F(18)#1000003
 WRITE S,!
 QUIT
F(N) ; N and all below it, multiplied
 IF N<2 QUIT 1
 QUIT N*$$F(N-1)
