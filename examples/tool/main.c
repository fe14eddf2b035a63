#include <stdio.h>

#include "table.h"
#include "words.h"

/* Prints how often each word occurs on standard input. */
int
main(void)
{
	struct table table = {NULL, 0};
	char word[WORD_SIZE];

	while (next_word(stdin, word) > 0)
		if (table_add(&table, word) != 0) {
			fprintf(stderr, "tool: no room\n");
			return 1;
		}
	table_sort(&table);
	for (size_t i = 0; i < table.length; i++)
		printf("%zu %s\n", table.entries[i].count, table.entries[i].word);
	return 0;
}
