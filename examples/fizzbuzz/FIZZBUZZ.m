FIZZBUZZ ; counts to 15, with Fizz for multiples of 3 and Buzz for multiples of 5
 FOR I=1:1:15 WRITE $SELECT(I#15=0:"FizzBuzz",I#5=0:"Buzz",I#3=0:"Fizz",1:I)," "
 WRITE !
