#ifndef WORDS_H
#define WORDS_H

#include <stdio.h>

#define WORD_SIZE 64

/* Reads the next word of a stream, of which at most WORD_SIZE - 1 letters are kept. The answer is how
   many are kept, 0 at the end of the stream. */
size_t next_word(FILE *from, char word[WORD_SIZE]);

#endif
