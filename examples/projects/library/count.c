#include "text.h"

int count(const char *text, char letter)
{
	int found = 0;

	for (; *text != '\0'; text++)
		found += *text == letter;
	return found;
}
