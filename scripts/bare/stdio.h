/* What the programs of examples-c need of <stdio.h>, for the kit's compiler, which comes without headers: the declarations of
 * the C library that the kit links (glibc for x86-64). */
#ifndef BARE_STDIO_H
#define BARE_STDIO_H
#include <stddef.h>
typedef struct bare_file FILE;
extern FILE *stdin, *stdout, *stderr;
FILE *fopen(const char *name, const char *mode);
int fclose(FILE *file);
size_t fread(void *to, size_t size, size_t count, FILE *file);
int ferror(FILE *file);
int printf(const char *format, ...);
int fprintf(FILE *file, const char *format, ...);
void perror(const char *with);
#endif
