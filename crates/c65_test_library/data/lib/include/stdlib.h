/* General utilities (C90 7.10), without floating types, atexit, the environment, div and ldiv, and wide characters. */
#ifndef _LIB_STDLIB
#define _LIB_STDLIB

#ifndef _LIB_SIZE
#define _LIB_SIZE
typedef unsigned int size_t;
#endif

#ifndef NULL
#define NULL ((void *)0)
#endif

#define EXIT_SUCCESS 0
#define EXIT_FAILURE 1
#define RAND_MAX 32767

int atoi(const char *s);
long atol(const char *s);
long strtol(const char *s, char **end, int base);
unsigned long strtoul(const char *s, char **end, int base);

int rand(void);
void srand(unsigned int seed);

void *calloc(size_t count, size_t size);
void free(void *p);
void *malloc(size_t size);
void *realloc(void *p, size_t size);

void abort(void);
void exit(int status);

void *bsearch(const void *key, const void *base, size_t count, size_t size,
              int (*compare)(const void *, const void *));
void qsort(void *base, size_t count, size_t size, int (*compare)(const void *, const void *));

int abs(int n);
long labs(long n);

/* Beyond C90, as cc65 has them. */
#ifndef __STRICT_ANSI__
char *itoa(int n, char *s, int base);
char *ltoa(long n, char *s, int base);
char *utoa(unsigned int n, char *s, int base);
char *ultoa(unsigned long n, char *s, int base);
#endif

#endif
