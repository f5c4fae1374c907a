HELLO ; greets everyone who says a name, until there are no more
 FOR  READ "Who are you? ",NAME:0 QUIT:'$TEST  WRITE "Hello, ",NAME,".",!
 WRITE "Goodbye.",!
