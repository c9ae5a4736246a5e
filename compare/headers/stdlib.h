/* See stddef.h. */
#pragma once
#include <stddef.h>
void *malloc(size_t size);
void free(void *space);
_Noreturn void exit(int status);
