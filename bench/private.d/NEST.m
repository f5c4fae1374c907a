NEST ; loops in loops, with remainders and quotients of both signs
 SET S=0
 FOR I=1:1:3600 FOR J=-600:1:600 SET S=I*J\7+S,S=S-(J#13)
 WRITE S,!
 QUIT
