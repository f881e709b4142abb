left\ hand.o: left\ hand.c /usr/include/stdc-predef.h left\ hand.h a.h
