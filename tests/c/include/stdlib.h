/* What the examples use of stdlib.h. */
#ifndef HERE_STDLIB_H
#define HERE_STDLIB_H
#include <stddef.h>
void *realloc(void *, size_t);
void exit(int);
#endif
