spaces.o: spaces.c /usr/include/stdc-predef.h \
 dir\ with\ spaces/header\ 0.h dir\ with\ spaces/header\ 1.h \
 dir\ with\ spaces/header\ 2.h dir\ with\ spaces/header\ 3.h \
 dir\ with\ spaces/header\ 4.h dir\ with\ spaces/header\ 5.h \
 dir\ with\ spaces/header\ 6.h dir\ with\ spaces/header\ 7.h \
 dir\ with\ spaces/header\ 8.h dir\ with\ spaces/header\ 9.h \
 dir\ with\ spaces/header\ 10.h dir\ with\ spaces/header\ 11.h
