/* What the portable library needs of string.h, for systems whose headers are not here: see bindings/portable/check. */
#include <stddef.h>

void *memcpy(void *, const void *, size_t);
void *memmove(void *, const void *, size_t);
void *memset(void *, int, size_t);
