#ifndef TABLE_H
#define TABLE_H

#include <stddef.h>

/* The words so far, each once, with how often it occurred. */
struct table {
	struct entry *entries;
	size_t length;
};

struct entry {
	char *word;
	size_t count;
};

/* Counts a word once more. The answer is 0, or -1 where there is no room. */
int table_add(struct table *table, const char *word);

/* Puts the entries into the order of their counts, the highest first, and then of their words. */
void table_sort(struct table *table);

#endif
