#ifndef LETTERS_H
#define LETTERS_H

#include <ctype.h>

/* Whether a byte belongs to a word. */
#define IS_LETTER(c) (isalnum((unsigned char)(c)))

#endif
