# A library. It takes
#
#     LIB      its name, of which lib${LIB}.a is made
#     SRCS     its sources; headers among them are made before all objects
#     INCS     headers that are installed
#     CLEANFILES   what clean removes beside what is made here
#
# and makes all, clean and install; DESTDIR goes before the directories of install.
.include <sys.mk>

.MAIN: all

ARCHIVE=	lib${LIB}.a
OBJS=		${SRCS:N*.h:R:S/$/.o/}

all: ${ARCHIVE} .PHONY

# The archive is made anew, so that it has no member of a source that is gone.
${ARCHIVE}: ${OBJS}
	rm -f ${.TARGET}
	${AR} ${ARFLAGS} ${.TARGET} ${OBJS}

.if !empty(SRCS:M*.h)
${OBJS}: ${SRCS:M*.h}
.endif

clean: .PHONY
	rm -f ${ARCHIVE} ${OBJS} ${CLEANFILES}

install: all .PHONY
	mkdir -p ${DESTDIR}${LIBDIR}
	${INSTALL} -m ${FILEMODE} ${ARCHIVE} ${DESTDIR}${LIBDIR}/${ARCHIVE}
.for header in ${INCS}
	mkdir -p ${DESTDIR}${INCSDIR}
	${INSTALL} -m ${FILEMODE} ${header} ${DESTDIR}${INCSDIR}/${header:T}
.endfor
