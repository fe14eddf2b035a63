#include "count.h"

size_t
lines(const char *text, size_t length)
{
	size_t count = 0;

	for (size_t i = 0; i < length; i++)
		if (text[i] == '\n')
			count++;
	return count;
}
