one\ two a$$b: plain.c /usr/include/stdc-predef.h a.h
