/* The number of the last error (C90 7.1.4). */
#include <errno.h>

int errno;
