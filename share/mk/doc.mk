# Documents. It takes
#
#     DOC      the documents that are made, as guide.html and page.txt: page.1 gives page.txt and page.html by mandoc,
#              others by the rules of the makefile that includes this file
#     DOCPARTS files that each of them is made from beside its own source, as a head and a foot
#     CLEANFILES   what clean removes beside what is made here
#
# and makes all, clean and install; DESTDIR goes before the directory of install.
.include <sys.mk>

.MAIN: all

all: ${DOC} .PHONY

.if !empty(DOCPARTS)
${DOC}: ${DOCPARTS}
.endif

clean: .PHONY
	rm -f ${DOC} ${CLEANFILES}

install: all .PHONY
	mkdir -p ${DESTDIR}${DOCDIR}
.for document in ${DOC}
	${INSTALL} -m ${FILEMODE} ${document} ${DESTDIR}${DOCDIR}/${document:T}
.endfor
