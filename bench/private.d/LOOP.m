LOOP ; loops with arithmetic: a running sum of products
 SET S=7
 FOR I=1:1:1600000 SET S=S*31+I#1000003
 WRITE S,!
 QUIT
