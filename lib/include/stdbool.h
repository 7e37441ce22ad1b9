/* Truth values by macros: bool is a byte, so a value is to be made 0 or 1 before it is stored. */
#ifndef _LIB_STDBOOL
#define _LIB_STDBOOL

#define bool unsigned char
#define true 1
#define false 0
#define __bool_true_false_are_defined 1

#endif
