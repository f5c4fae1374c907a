TRANSFER ; three jobs move money between two accounts while a fourth looks: their sum never changes
 SET ^BALANCE("Ann")=1000,^BALANCE("Bob")=500
 JOB PAY("Ann","Bob",7),PAY("Bob","Ann",5),PAY("Ann","Bob",3)
 FOR I=1:1:5 DO LOOK
 QUIT
PAY(FROM,TO,AMOUNT) ; ten times
 FOR I=1:1:10 DO MOVE
 QUIT
MOVE ; both accounts change at once, or neither does
 TSTART ():SERIAL
 SET ^BALANCE(FROM)=^BALANCE(FROM)-AMOUNT
 SET ^BALANCE(TO)=^BALANCE(TO)+AMOUNT
 TCOMMIT
 QUIT
LOOK ; the sum, of one moment
 TSTART ():SERIAL
 SET SUM=^BALANCE("Ann")+^BALANCE("Bob")
 TCOMMIT
 WRITE SUM,!
 QUIT
