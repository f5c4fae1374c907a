SEARCH ; $FIND, $TRANSLATE and [ over a page of text
 SET P=""
 FOR I=1:1:120 SET P=P_"The quick brown fox "_I_" jumps over the lazy dog; "
 SET S=0
 FOR R=1:1:10000 DO ROUND
 WRITE S,!
 QUIT
ROUND ; each place of a word, in the text as it is and in capitals
 SET A=0
 FOR  SET A=$FIND(P,"fox",A) QUIT:A=0  SET S=S+A
 SET U=$TRANSLATE(P,"abcdefghijklmnopqrstuvwxyz;","ABCDEFGHIJKLMNOPQRSTUVWXYZ")
 SET A=0
 FOR  SET A=$FIND(U,"LAZY DOG",A) QUIT:'A  SET S=S+(A#97)
 IF U["BROWN FOX 119 ",U'["CAT" SET S=S+$LENGTH($TRANSLATE(U,"AEIOU"))
 QUIT
