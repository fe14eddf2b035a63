#include <stdio.h>
#include "colors.h"

const char *name_of(enum color color);

int main(void)
{
	puts(name_of(GREEN));
	return 0;
}
