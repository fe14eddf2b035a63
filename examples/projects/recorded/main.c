#include <stdio.h>
#include "limit.h"
#include "prime.h"

int main(void)
{
	for (int number = 0; number < LIMIT; number++)
		if (is_prime(number))
			printf("%d\n", number);
	return 0;
}
