# A tree of makes. It takes
#
#     SUBDIR       directories, in the order in which they are made
#     SUBDIR_PARALLEL   where it is set, several may be made at once
#     TARGETS      what is made in each of them: all, clean and install, and what is named here beside these
#
# Options and assignments reach the makes below; -m does so as it is, so give it an absolute directory.
.MAIN: all

TARGETS+=	all clean install

.for target in ${TARGETS:O:u}
.  for directory in ${SUBDIR}
${target}-${directory}: .PHONY
	@+cd ${directory} && ${MAKE} ${target}
.  endfor
${target}: ${SUBDIR:S/^/${target}-/} .PHONY
.  if !defined(SUBDIR_PARALLEL)
.ORDER: ${SUBDIR:S/^/${target}-/}
.  endif
.endfor
