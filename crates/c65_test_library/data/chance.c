/* stdlib.h: the generator of C90 7.10.2. */
#include <stdlib.h>
#include "show.h"

int main(void)
{
    int i, n, least = RAND_MAX, most = 0;

    for (i = 0; i < 4; ++i)
        show("rand", rand());
    srand(1);
    show("srand 1 begins anew", rand());
    srand(65535U);
    for (i = 0; i < 4; ++i)
        show("rand", rand());
    for (i = 0; i < 500; ++i) {
        n = rand();
        if (n < least)
            least = n;
        if (n > most)
            most = n;
    }
    show("least", least);
    show("most", most);
    return 0;
}
