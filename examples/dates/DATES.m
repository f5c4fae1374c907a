DATES ; the dates of day counts, of which day 1 is the first of January 1841
 FOR DAY=1,47117,58133 WRITE $$DATE(DAY),!
 QUIT
DATE(DAY) ; the date, as YYYY-MM-DD; years begin with March here, so that a leap day is the last
 NEW ERA,YEAR,MONTH
 SET DAY=DAY+672351,ERA=DAY\146097,DAY=DAY#146097
 SET YEAR=DAY-(DAY\1460)+(DAY\36524)-(DAY\146096)\365
 SET DAY=DAY-(365*YEAR+(YEAR\4)-(YEAR\100)),MONTH=5*DAY+2\153
 SET DAY=DAY-(153*MONTH+2\5)+1,MONTH=MONTH+2#12+1
 QUIT 400*ERA+YEAR+(MONTH<3)_"-"_$$TWO(MONTH)_"-"_$$TWO(DAY)
TWO(N) ; two digits
 QUIT $EXTRACT(100+N,2,3)
