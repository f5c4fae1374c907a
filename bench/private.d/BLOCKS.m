BLOCKS ; lines with dots: blocks in a loop, with IF and ELSE in them
 SET (S,E,O)=0
 FOR I=1:1:1600000 DO
 . IF I#2 SET O=O+1
 . ELSE  SET E=E+1 DO
 . . SET S=S+I#1000003
 . . IF S<1000 SET S=S+7
 . SET S=S+$SELECT(I#3=0:1,I#5=0:2,1:3)
 WRITE S," ",E," ",O,!
 QUIT
