PARTS ; how many of a part there are in a thing, with those in its parts
 SET ^PART("bicycle","frame")=1,^PART("bicycle","wheel")=2
 SET ^PART("wheel","spoke")=32,^PART("wheel","tyre")=1
 WRITE $$COUNT("bicycle","spoke")," spokes",!
 QUIT
COUNT(THING,PART) ; walks down the parts of a thing
 IF THING=PART QUIT 1
 NEW NEXT,SUM SET NEXT="",SUM=0
 FOR  SET NEXT=$ORDER(^PART(THING,NEXT)) QUIT:NEXT=""  SET SUM=^PART(THING,NEXT)*$$COUNT(NEXT,PART)+SUM
 QUIT SUM
