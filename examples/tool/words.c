#include "words.h"
#include "letters.h"

size_t
next_word(FILE *from, char word[WORD_SIZE])
{
	size_t length = 0;
	int byte = getc(from);

	while (byte != EOF && !IS_LETTER(byte))
		byte = getc(from);
	while (byte != EOF && IS_LETTER(byte)) {
		if (length < WORD_SIZE - 1)
			word[length++] = (char)byte;
		byte = getc(from);
	}
	word[length] = '\0';
	return length;
}
