#include "colors.h"

static const char *const names[] = {
#include "table.h"
};

const char *name_of(enum color color)
{
	return names[color];
}
