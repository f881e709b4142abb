odd.o: odd.c /usr/include/stdc-predef.h d:e.h f\g.h i\\\ j.h k\	l.h m'n.h \
 o\\#p.h q%r.h
