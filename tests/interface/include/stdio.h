/* Stands in for the C library's header, which the kit's compiler comes without: what the C programs here call. */
#ifndef STAND_IN_STDIO_H
#define STAND_IN_STDIO_H
#include <stddef.h>
typedef struct _IO_FILE FILE;
extern FILE *stdin;
int printf(const char *, ...);
size_t fread(void *, size_t, size_t, FILE *);
#endif
