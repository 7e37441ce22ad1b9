/* Errors (C90 7.1.4). */
#ifndef _LIB_ERRNO
#define _LIB_ERRNO

#define EDOM 33
#define ERANGE 34

extern int errno;

#endif
