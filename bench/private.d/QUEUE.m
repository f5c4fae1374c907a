QUEUE ; a queue of 60,000: one goes in at its end, one goes out at its front
 FOR I=1:1:60000 SET Q(I)=I
 SET L=60000,S=0
 FOR R=1:1:1000000 SET F=$ORDER(Q("")),S=S+Q(F)#1000003,L=L+1,Q(L)=S KILL Q(F)
 WRITE S,!
 QUIT
