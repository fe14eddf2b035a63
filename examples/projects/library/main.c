#include <stdio.h>
#include "text.h"

int main(void)
{
	char text[] = "to be, or not to be";

	upper(text);
	printf("%s: %d\n", text, count(text, 'B'));
	return 0;
}
