# A program. It takes
#
#     PROG     its name
#     SRCS     its sources, PROG.c where none are named; headers among them are made before all objects
#     LDADD    libraries and options behind its objects
#     DPADD    files that it is made from beside these, as libraries that are made elsewhere
#     MAN      manual pages
#     CLEANFILES   what clean removes beside what is made here
#
# and makes all, clean and install; DESTDIR goes before the directories of install.
.include <sys.mk>

.MAIN: all

SRCS?=		${PROG}.c
OBJS=		${SRCS:N*.h:R:S/$/.o/}

all: ${PROG} .PHONY

${PROG}: ${OBJS} ${DPADD}
	${CC} ${LDFLAGS} -o ${.TARGET} ${OBJS} ${LDADD} ${LDLIBS}

.if !empty(SRCS:M*.h)
${OBJS}: ${SRCS:M*.h}
.endif

clean: .PHONY
	rm -f ${PROG} ${OBJS} ${CLEANFILES}

install: all .PHONY
	mkdir -p ${DESTDIR}${BINDIR}
	${INSTALL} -m ${BINMODE} ${PROG} ${DESTDIR}${BINDIR}/${PROG}
.for page in ${MAN}
	mkdir -p ${DESTDIR}${MANDIR}/man${page:E}
	${INSTALL} -m ${FILEMODE} ${page} ${DESTDIR}${MANDIR}/man${page:E}/${page:T}
.endfor
