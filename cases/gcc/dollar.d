cost$$.o: cost$$.c /usr/include/stdc-predef.h b$$c.h
