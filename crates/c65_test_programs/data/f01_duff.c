/* Case labels within a loop (Duff's copying), for each remainder of the count. */
#include "show.h"

static int copied;

static void send(char *to, char *from, int count)
{
    int n = (count + 7) / 8;

    switch (count % 8) {
    case 0: do { *to++ = *from++; copied++;
    case 7:      *to++ = *from++; copied++;
    case 6:      *to++ = *from++; copied++;
    case 5:      *to++ = *from++; copied++;
    case 4:      *to++ = *from++; copied++;
    case 3:      *to++ = *from++; copied++;
    case 2:      *to++ = *from++; copied++;
    case 1:      *to++ = *from++; copied++;
            } while (--n > 0);
    }
}

int main(void)
{
    char from[20], to[20];
    int i, count;

    for (count = 1; count <= 17; count += 2) {
        for (i = 0; i < 20; i++) {
            from[i] = 'a' + i;
            to[i] = '.';
        }
        to[19] = 0;
        copied = 0;
        send(to, from, count);
        puts(to);
        line(copied);
    }
    return 0;
}
