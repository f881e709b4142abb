plain.o: plain.c a.h
left\ hand.o: left\ hand.c left\ hand.h a.h
