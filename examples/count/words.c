#include "count.h"

#include <ctype.h>

size_t
words(const char *text, size_t length)
{
	size_t count = 0;
	int inside = 0;

	for (size_t i = 0; i < length; i++) {
		int white = isspace((unsigned char)text[i]);

		if (!white && !inside)
			count++;
		inside = !white;
	}
	return count;
}
