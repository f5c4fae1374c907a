REGISTRY ; two jobs add people, each with a number of its own and in an index by name
 JOB ADDALL("Cid,Ann,Eve"),ADDALL("Bob,Flo,Dan")
 FOR  QUIT:$GET(^PERSON)=6  HANG 1
 DO REMOVE("Eve")
 DO LIST
 QUIT
ADDALL(NAMES)
 FOR I=1:1:3 DO ADD($PIECE(NAMES,",",I))
 QUIT
ADD(NAME) ; the next number, the person and the index: all of it or nothing
 TSTART ():SERIAL
 SET N=$GET(^PERSON)+1,^PERSON=N
 SET ^PERSON(N)=NAME,^INDEX(NAME)=N
 TCOMMIT
 QUIT
REMOVE(NAME) ; from both
 TSTART ():SERIAL
 SET N=^INDEX(NAME)
 KILL ^PERSON(N),^INDEX(NAME)
 TCOMMIT
 QUIT
LIST ; by name, each with what the index leads to
 SET NAME=""
 FOR  SET NAME=$ORDER(^INDEX(NAME)) QUIT:NAME=""  WRITE NAME," is ",^PERSON(^INDEX(NAME)),!
 QUIT
