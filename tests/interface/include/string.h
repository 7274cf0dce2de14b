/* Stands in for the C library's header, which the kit's compiler comes without: what the C programs here call. */
#ifndef STAND_IN_STRING_H
#define STAND_IN_STRING_H
#include <stddef.h>
void *memcpy(void *, const void *, size_t);
int memcmp(const void *, const void *, size_t);
void *memset(void *, int, size_t);
#endif
