/*
 * Loaded before the C library (LD_PRELOAD): the allocation of the program itself with the number REFUSE, counted
 * from 1, is refused, and those of libraries are not. How many it made stands in the file ALLOCATIONS at its end.
 * Its children are not touched.
 */
#define _GNU_SOURCE
#include <fcntl.h>
#include <link.h>
#include <stdio.h>
#include <stdlib.h>
#include <string.h>
#include <unistd.h>

extern void *__libc_malloc(size_t);
extern void *__libc_realloc(void *, size_t);

static uintptr_t program_start, program_end;
static unsigned long count, refused;
static int is_ready;
static char count_path[4096];

/* The first object is the program. */
static int note_program(struct dl_phdr_info *info, size_t size, void *data)
{
	(void)size;
	(void)data;
	program_start = info->dlpi_addr;
	for (int i = 0; i < info->dlpi_phnum; i++) {
		uintptr_t end = info->dlpi_addr + info->dlpi_phdr[i].p_vaddr + info->dlpi_phdr[i].p_memsz;
		if (info->dlpi_phdr[i].p_type == PT_LOAD && end > program_end)
			program_end = end;
	}
	return 1;
}

__attribute__((constructor)) static void begin(void)
{
	const char *number = getenv("REFUSE");
	const char *path = getenv("ALLOCATIONS");
	if (number == NULL || path == NULL)
		return;
	strncpy(count_path, path, sizeof count_path - 1);
	refused = strtoul(number, NULL, 10);
	dl_iterate_phdr(note_program, NULL);
	unsetenv("LD_PRELOAD");
	unsetenv("REFUSE");
	unsetenv("ALLOCATIONS");
	is_ready = 1;
}

__attribute__((destructor)) static void end(void)
{
	char text[32];
	int file, length;
	if (!is_ready)
		return;
	file = open(count_path, O_WRONLY | O_CREAT | O_TRUNC, 0666);
	length = snprintf(text, sizeof text, "%lu\n", count);
	if (file < 0 || write(file, text, (size_t)length) != length)
		_exit(125);
	close(file);
}

static int is_refused(void *caller)
{
	uintptr_t place = (uintptr_t)caller;
	return is_ready && place >= program_start && place < program_end && ++count == refused;
}

void *malloc(size_t size)
{
	return is_refused(__builtin_return_address(0)) ? NULL : __libc_malloc(size);
}

void *realloc(void *old, size_t size)
{
	return is_refused(__builtin_return_address(0)) ? NULL : __libc_realloc(old, size);
}
