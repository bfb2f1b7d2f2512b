/* The part of C's stdio.h that the programs of examples/ ask for, as x86-64's glibc has it; the kit's clang comes without headers. */
#include <stddef.h>

typedef struct _IO_FILE FILE;

extern FILE *stdin;
extern FILE *stderr;

FILE *fopen(const char *restrict name, const char *restrict mode);
int fclose(FILE *file);
size_t fread(void *restrict to, size_t size, size_t count, FILE *restrict from);
int ferror(FILE *of);
int printf(const char *restrict format, ...);
int fprintf(FILE *restrict to, const char *restrict format, ...);
int putchar(int character);
