#include "prime.h"

int is_prime(int number)
{
	for (int by = 2; by * by <= number; by++)
		if (number % by == 0)
			return 0;
	return number > 1;
}
