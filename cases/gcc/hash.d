hash\#tag.o: hash\#tag.c /usr/include/stdc-predef.h x\#y.h
