/* Input and output (C90 7.9): the two streams alone, by characters and lines. */
#ifndef _LIB_STDIO
#define _LIB_STDIO

#ifndef _LIB_SIZE
#define _LIB_SIZE
typedef unsigned int size_t;
#endif

#ifndef NULL
#define NULL ((void *)0)
#endif

#define EOF (-1)

typedef struct {
    unsigned char number;
} FILE;

/* Streams are told apart by their addresses alone; stderr writes where stdout does. */
#define stdin ((FILE *)1)
#define stdout ((FILE *)2)
#define stderr ((FILE *)3)

int fgetc(FILE *stream);
char *fgets(char *s, int size, FILE *stream);
int fputc(int c, FILE *stream);
int fputs(const char *s, FILE *stream);
int getc(FILE *stream);
int getchar(void);
int printf(const char *format, ...);
int putc(int c, FILE *stream);
int putchar(int c);
int puts(const char *s);
int sprintf(char *s, const char *format, ...);
int sscanf(const char *s, const char *format, ...);

/* The list is a va_list. */
int vprintf(const char *format, unsigned char *list);
int vsprintf(char *s, const char *format, unsigned char *list);

/* Beyond C90, as POSIX has it. */
#ifndef __STRICT_ANSI__
int getline(char **line, size_t *size, FILE *stream);
#endif

#endif
