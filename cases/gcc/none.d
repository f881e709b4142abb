none.o: none.c /usr/include/stdc-predef.h
