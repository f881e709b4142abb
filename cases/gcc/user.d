stdio.o: stdio.c
