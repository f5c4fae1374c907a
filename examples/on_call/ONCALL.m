ONCALL ; each doctor may leave where another one stays
ANN DO LEAVE("Ann") QUIT
BOB DO LEAVE("Bob") QUIT
LEAVE(WHO) ; counts who is on call, and leaves if there are others
 TSTART ():SERIAL
 SET COUNT=0,NAME=""
 FOR  SET NAME=$ORDER(^ONCALL(NAME)) QUIT:NAME=""  SET COUNT=COUNT+1
 KILL:COUNT>1 ^ONCALL(WHO)
 TCOMMIT
 WRITE WHO,$SELECT(COUNT>1:" leaves",1:" stays"),!
 QUIT
