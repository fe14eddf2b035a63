#include "count.h"

#include <stdio.h>

/* Prints how many lines and words stand on standard input, up to its first 65,536 bytes. */
int
main(void)
{
	static char text[65536];
	size_t length = fread(text, 1, sizeof(text), stdin);

	printf("%zu %zu\n", lines(text, length), words(text, length));
	return 0;
}
