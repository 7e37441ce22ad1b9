/* An error in words. */
#include <errno.h>
#include <string.h>

char *strerror(int number)
{
    switch (number) {
    case 0:
        return "no error";
    case EDOM:
        return "argument out of the domain";
    case ERANGE:
        return "result out of the range";
    default:
        return "unknown error";
    }
}
