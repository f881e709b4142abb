stdin.o: /usr/include/stdc-predef.h
