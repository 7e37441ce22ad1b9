#define TWO 2
static int twice(int n)
{
    return n * TWO + missing;
}
