#include <stdlib.h>
#include <string.h>

#include "table.h"

int
table_add(struct table *table, const char *word)
{
	for (size_t i = 0; i < table->length; i++)
		if (strcmp(table->entries[i].word, word) == 0) {
			table->entries[i].count++;
			return 0;
		}

	size_t size = (table->length + 1) * sizeof(struct entry);
	struct entry *entries = realloc(table->entries, size);

	if (entries == NULL)
		return -1;
	table->entries = entries;

	char *copy = malloc(strlen(word) + 1);

	if (copy == NULL)
		return -1;
	strcpy(copy, word);
	entries[table->length].word = copy;
	entries[table->length].count = 1;
	table->length++;
	return 0;
}

static int
compare(const void *first, const void *second)
{
	const struct entry *one = first, *other = second;

	if (one->count != other->count)
		return one->count < other->count ? 1 : -1;
	return strcmp(one->word, other->word);
}

void
table_sort(struct table *table)
{
	if (table->length > 0)
		qsort(table->entries, table->length, sizeof(struct entry), compare);
}
