#include "text.h"

void upper(char *text)
{
	for (; *text != '\0'; text++)
		if (*text >= 'a' && *text <= 'z')
			*text -= 'a' - 'A';
}
