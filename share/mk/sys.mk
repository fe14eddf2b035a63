# The programs, options and suffix rules that makefiles count on. Nothing is built in: a makefile begins with
#
#     .include <sys.mk>
#
# and make is run with -m and this directory. Each value is set where nothing else has set it, as the environment, the
# command line and lines before this one do.
.if !defined(SYS_MK)
SYS_MK=		yes

AR?=		ar
ARFLAGS?=	rcs
AS?=		as
AWK?=		awk
CC?=		cc
CFLAGS?=	-O2
COMPILE.c?=	${CC} ${CFLAGS} ${CPPFLAGS} -c
COMPILE.cc?=	${CXX} ${CXXFLAGS} ${CPPFLAGS} -c
COMPILE.s?=	${CC} ${CFLAGS} -c
CPPFLAGS?=
CXX?=		c++
CXXFLAGS?=	${CFLAGS}
INSTALL?=	install
LDFLAGS?=
LDLIBS?=
LEX?=		lex
LN?=		ln
MANDOC?=	mandoc
RANLIB?=	ranlib
SED?=		sed
SHELL?=		/bin/sh
YACC?=		yacc

PREFIX?=	/usr/local
BINDIR?=	${PREFIX}/bin
LIBDIR?=	${PREFIX}/lib
INCSDIR?=	${PREFIX}/include
MANDIR?=	${PREFIX}/share/man
DOCDIR?=	${PREFIX}/share/doc
BINMODE?=	755
FILEMODE?=	644

.SUFFIXES:
.SUFFIXES: .o .c .cc .cpp .s .S .l .y .sh .1 .5 .8 .txt .html

.c.o:
	${COMPILE.c} ${.IMPSRC} -o ${.TARGET}

.cc.o:
	${COMPILE.cc} ${.IMPSRC} -o ${.TARGET}

.cpp.o:
	${COMPILE.cc} ${.IMPSRC} -o ${.TARGET}

.s.o:
	${COMPILE.s} ${.IMPSRC} -o ${.TARGET}

.S.o:
	${COMPILE.s} ${CPPFLAGS} ${.IMPSRC} -o ${.TARGET}

.y.c:
	${YACC} -o ${.TARGET} ${.IMPSRC}

.l.c:
	${LEX} -t ${.IMPSRC} >${.TARGET}

# A rule is one target, so each pair of suffixes has its own.
.for section in 1 5 8
.${section}.txt:
	${MANDOC} -T ascii ${.IMPSRC} | col -b >${.TARGET}

.${section}.html:
	${MANDOC} -T html ${.IMPSRC} >${.TARGET}
.endfor
.endif
