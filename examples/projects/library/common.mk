CC?=		cc
AR?=		ar
CFLAGS?=	-O

.SUFFIXES: .o .c

.c.o:
	${CC} ${CFLAGS} -c ${.IMPSRC} -o ${.TARGET}
