generated.o: generated.c to\ be\ made.h made.h
