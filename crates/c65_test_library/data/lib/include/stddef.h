/* Common definitions (C90 7.1.6). There is no wchar_t. */
#ifndef _LIB_STDDEF
#define _LIB_STDDEF

#ifndef _LIB_SIZE
#define _LIB_SIZE
typedef unsigned int size_t;
#endif

#ifndef NULL
#define NULL ((void *)0)
#endif

typedef int ptrdiff_t;

#define offsetof(type, member) ((size_t)&((type *)0)->member)

#endif
