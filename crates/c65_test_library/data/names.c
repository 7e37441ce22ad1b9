/* stddef.h, stdbool.h, limits.h, errno.h and strerror; and each header is included twice. */
#include <stddef.h>
#include <stdbool.h>
#include <limits.h>
#include <errno.h>
#include <string.h>
#include <stdlib.h>
#include <ctype.h>
#include <stdint.h>
#include <stddef.h>
#include <stdbool.h>
#include <limits.h>
#include <errno.h>
#include <string.h>
#include <stdlib.h>
#include <ctype.h>
#include <stdint.h>
#include "show.h"

struct parts {
    char one;
    long four;
    struct {
        int two[3];
    } inner;
    unsigned bits : 3;
};

int main(void)
{
    bool yes = true, no = false;
    static char text[5];
    ptrdiff_t back = &text[0] - &text[4];
    size_t most = (size_t)-1;

    show("offsetof", offsetof(struct parts, one));
    show("offsetof", offsetof(struct parts, four));
    show("offsetof", offsetof(struct parts, inner));
    show("offsetof", offsetof(struct parts, inner.two[2]));
    show("size of size_t", sizeof(size_t));
    show("ptrdiff_t", back);
    show("size_t", most > 60000U);
    show("bool", yes * 10 + no);
    show("NULL", NULL == 0);
    show("EXIT", EXIT_SUCCESS * 10 + EXIT_FAILURE);
    show("CHAR_BIT", CHAR_BIT);
    show("LONG_MIN", LONG_MIN);
    show("errno", errno);
    errno = EDOM;
    show("errno", errno == EDOM && EDOM != ERANGE && EDOM && ERANGE);
    show("strerror", strcmp(strerror(EDOM), strerror(ERANGE)) != 0);
    show("strerror", strlen(strerror(0)) && strlen(strerror(-1)));
    return 0;
}
