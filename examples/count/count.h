#ifndef COUNT_H
#define COUNT_H

#include <stddef.h>

/* How many lines of a text end with a newline. */
size_t lines(const char *text, size_t length);

/* How many words a text has, with white space between them. */
size_t words(const char *text, size_t length);

#endif
