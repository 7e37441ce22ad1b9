#include "show.h"

int add(int a, int b) { return a + b; }
int main(void)
{
    int a = 123, b = 45, c = -7;
    line(a + b); line(a - b); line(a * b); line(a / b); line(a % b);
    line(c / 2); line(c % 2); line(-c); line(~c); line(!c); line(!0);
    line(a & b); line(a | b); line(a ^ b); line(a << 3); line(a >> 2); line(c >> 1);
    line(a < b); line(a > b); line(a <= 123); line(a >= 124); line(a == 123); line(a != 123);
    line(c < 0); line(c < b); line(c > b);
    line(add(add(1, 2), add(3, 4)) * 2 - 1);
    line((a, b)); line(a ? b : c); line(0 ? b : c);
    line(a && 0); line(a && b); line(0 || c); line(0 || 0);
    return 0;
}
