
PREFIX=/usr/local
BINDIR=${PREFIX}/bin
MANDIR=$(PREFIX)/share/man
PREFIX=/opt/tools
PRICE=5$$
SELF=${SELF} again
