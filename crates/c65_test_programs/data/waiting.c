int putchar(int c);
static void number(long n) { if (n < 0) { putchar('-'); n = -n; } if (n > 9) number(n / 10); putchar('0' + (int) (n % 10)); }
static void item(long n) { number(n); putchar(' '); }
static void end(void) { putchar('\n'); }
static int s = 77;
static const int values[] = { -32767 - 1, -1, 0, 200, 32767 };
static int same_i(int x) { return x; }
static unsigned waiting_i_0(unsigned h, int x, int y, int z)
{
    h = h * 31 + (unsigned) (same_i(x) + (y + z));
    h = h * 31 + (unsigned) (same_i(x) - (y + z));
    h = h * 31 + (unsigned) (same_i(x) & (y + z));
    h = h * 31 + (unsigned) (same_i(x) | (y + z));
    h = h * 31 + (unsigned) (same_i(x) ^ (y + z));
    if (same_i(x) != (y + z)) h = h * 31 + 1;
    if (same_i(x) < (y + z)) h = h * 31 + 2;
    if (same_i(x) <= (y + z)) h = h * 31 + 3;
    if (same_i(x) == (y + z)) h = h * 31 + 4;
    if (same_i(x) > (y + z)) h = h * 31 + 5;
    if (same_i(x) >= (y + z)) h = h * 31 + 6;
    h = h * 31 + (same_i(x) != (y + z));
    h = h * 31 + (same_i(x) < (y + z));
    h = h * 31 + (same_i(x) <= (y + z));
    h = h * 31 + (same_i(x) == (y + z));
    h = h * 31 + (same_i(x) > (y + z));
    h = h * 31 + (same_i(x) >= (y + z));
    return h;
}
static unsigned waiting_i_1(unsigned h, int x, int y, int z)
{
    h = h * 31 + (unsigned) (same_i(x) + (y - z));
    h = h * 31 + (unsigned) (same_i(x) - (y - z));
    h = h * 31 + (unsigned) (same_i(x) & (y - z));
    h = h * 31 + (unsigned) (same_i(x) | (y - z));
    h = h * 31 + (unsigned) (same_i(x) ^ (y - z));
    if (same_i(x) != (y - z)) h = h * 31 + 1;
    if (same_i(x) < (y - z)) h = h * 31 + 2;
    if (same_i(x) <= (y - z)) h = h * 31 + 3;
    if (same_i(x) == (y - z)) h = h * 31 + 4;
    if (same_i(x) > (y - z)) h = h * 31 + 5;
    if (same_i(x) >= (y - z)) h = h * 31 + 6;
    h = h * 31 + (same_i(x) != (y - z));
    h = h * 31 + (same_i(x) < (y - z));
    h = h * 31 + (same_i(x) <= (y - z));
    h = h * 31 + (same_i(x) == (y - z));
    h = h * 31 + (same_i(x) > (y - z));
    h = h * 31 + (same_i(x) >= (y - z));
    return h;
}
static unsigned waiting_i_2(unsigned h, int x, int y, int z)
{
    h = h * 31 + (unsigned) (same_i(x) + (y & z));
    h = h * 31 + (unsigned) (same_i(x) - (y & z));
    h = h * 31 + (unsigned) (same_i(x) & (y & z));
    h = h * 31 + (unsigned) (same_i(x) | (y & z));
    h = h * 31 + (unsigned) (same_i(x) ^ (y & z));
    if (same_i(x) != (y & z)) h = h * 31 + 1;
    if (same_i(x) < (y & z)) h = h * 31 + 2;
    if (same_i(x) <= (y & z)) h = h * 31 + 3;
    if (same_i(x) == (y & z)) h = h * 31 + 4;
    if (same_i(x) > (y & z)) h = h * 31 + 5;
    if (same_i(x) >= (y & z)) h = h * 31 + 6;
    h = h * 31 + (same_i(x) != (y & z));
    h = h * 31 + (same_i(x) < (y & z));
    h = h * 31 + (same_i(x) <= (y & z));
    h = h * 31 + (same_i(x) == (y & z));
    h = h * 31 + (same_i(x) > (y & z));
    h = h * 31 + (same_i(x) >= (y & z));
    return h;
}
static unsigned waiting_i_3(unsigned h, int x, int y, int z)
{
    h = h * 31 + (unsigned) (same_i(x) + (y | z));
    h = h * 31 + (unsigned) (same_i(x) - (y | z));
    h = h * 31 + (unsigned) (same_i(x) & (y | z));
    h = h * 31 + (unsigned) (same_i(x) | (y | z));
    h = h * 31 + (unsigned) (same_i(x) ^ (y | z));
    if (same_i(x) != (y | z)) h = h * 31 + 1;
    if (same_i(x) < (y | z)) h = h * 31 + 2;
    if (same_i(x) <= (y | z)) h = h * 31 + 3;
    if (same_i(x) == (y | z)) h = h * 31 + 4;
    if (same_i(x) > (y | z)) h = h * 31 + 5;
    if (same_i(x) >= (y | z)) h = h * 31 + 6;
    h = h * 31 + (same_i(x) != (y | z));
    h = h * 31 + (same_i(x) < (y | z));
    h = h * 31 + (same_i(x) <= (y | z));
    h = h * 31 + (same_i(x) == (y | z));
    h = h * 31 + (same_i(x) > (y | z));
    h = h * 31 + (same_i(x) >= (y | z));
    return h;
}
static unsigned waiting_i_4(unsigned h, int x, int y, int z)
{
    h = h * 31 + (unsigned) (same_i(x) + (y ^ z));
    h = h * 31 + (unsigned) (same_i(x) - (y ^ z));
    h = h * 31 + (unsigned) (same_i(x) & (y ^ z));
    h = h * 31 + (unsigned) (same_i(x) | (y ^ z));
    h = h * 31 + (unsigned) (same_i(x) ^ (y ^ z));
    if (same_i(x) != (y ^ z)) h = h * 31 + 1;
    if (same_i(x) < (y ^ z)) h = h * 31 + 2;
    if (same_i(x) <= (y ^ z)) h = h * 31 + 3;
    if (same_i(x) == (y ^ z)) h = h * 31 + 4;
    if (same_i(x) > (y ^ z)) h = h * 31 + 5;
    if (same_i(x) >= (y ^ z)) h = h * 31 + 6;
    h = h * 31 + (same_i(x) != (y ^ z));
    h = h * 31 + (same_i(x) < (y ^ z));
    h = h * 31 + (same_i(x) <= (y ^ z));
    h = h * 31 + (same_i(x) == (y ^ z));
    h = h * 31 + (same_i(x) > (y ^ z));
    h = h * 31 + (same_i(x) >= (y ^ z));
    return h;
}
static unsigned waiting_i_5(unsigned h, int x, int y, int z)
{
    h = h * 31 + (unsigned) (same_i(x) + (y - 7));
    h = h * 31 + (unsigned) (same_i(x) - (y - 7));
    h = h * 31 + (unsigned) (same_i(x) & (y - 7));
    h = h * 31 + (unsigned) (same_i(x) | (y - 7));
    h = h * 31 + (unsigned) (same_i(x) ^ (y - 7));
    if (same_i(x) != (y - 7)) h = h * 31 + 1;
    if (same_i(x) < (y - 7)) h = h * 31 + 2;
    if (same_i(x) <= (y - 7)) h = h * 31 + 3;
    if (same_i(x) == (y - 7)) h = h * 31 + 4;
    if (same_i(x) > (y - 7)) h = h * 31 + 5;
    if (same_i(x) >= (y - 7)) h = h * 31 + 6;
    h = h * 31 + (same_i(x) != (y - 7));
    h = h * 31 + (same_i(x) < (y - 7));
    h = h * 31 + (same_i(x) <= (y - 7));
    h = h * 31 + (same_i(x) == (y - 7));
    h = h * 31 + (same_i(x) > (y - 7));
    h = h * 31 + (same_i(x) >= (y - 7));
    return h;
}
static unsigned waiting_i_6(unsigned h, int x, int y, int z)
{
    h = h * 31 + (unsigned) (same_i(x) + (y + 1000));
    h = h * 31 + (unsigned) (same_i(x) - (y + 1000));
    h = h * 31 + (unsigned) (same_i(x) & (y + 1000));
    h = h * 31 + (unsigned) (same_i(x) | (y + 1000));
    h = h * 31 + (unsigned) (same_i(x) ^ (y + 1000));
    if (same_i(x) != (y + 1000)) h = h * 31 + 1;
    if (same_i(x) < (y + 1000)) h = h * 31 + 2;
    if (same_i(x) <= (y + 1000)) h = h * 31 + 3;
    if (same_i(x) == (y + 1000)) h = h * 31 + 4;
    if (same_i(x) > (y + 1000)) h = h * 31 + 5;
    if (same_i(x) >= (y + 1000)) h = h * 31 + 6;
    h = h * 31 + (same_i(x) != (y + 1000));
    h = h * 31 + (same_i(x) < (y + 1000));
    h = h * 31 + (same_i(x) <= (y + 1000));
    h = h * 31 + (same_i(x) == (y + 1000));
    h = h * 31 + (same_i(x) > (y + 1000));
    h = h * 31 + (same_i(x) >= (y + 1000));
    return h;
}
static unsigned waiting_i_7(unsigned h, int x, int y, int z)
{
    h = h * 31 + (unsigned) (same_i(x) + (y & 15));
    h = h * 31 + (unsigned) (same_i(x) - (y & 15));
    h = h * 31 + (unsigned) (same_i(x) & (y & 15));
    h = h * 31 + (unsigned) (same_i(x) | (y & 15));
    h = h * 31 + (unsigned) (same_i(x) ^ (y & 15));
    if (same_i(x) != (y & 15)) h = h * 31 + 1;
    if (same_i(x) < (y & 15)) h = h * 31 + 2;
    if (same_i(x) <= (y & 15)) h = h * 31 + 3;
    if (same_i(x) == (y & 15)) h = h * 31 + 4;
    if (same_i(x) > (y & 15)) h = h * 31 + 5;
    if (same_i(x) >= (y & 15)) h = h * 31 + 6;
    h = h * 31 + (same_i(x) != (y & 15));
    h = h * 31 + (same_i(x) < (y & 15));
    h = h * 31 + (same_i(x) <= (y & 15));
    h = h * 31 + (same_i(x) == (y & 15));
    h = h * 31 + (same_i(x) > (y & 15));
    h = h * 31 + (same_i(x) >= (y & 15));
    return h;
}
static unsigned waiting_i_8(unsigned h, int x, int y, int z)
{
    h = h * 31 + (unsigned) (same_i(x) + (y - (z + 5)));
    h = h * 31 + (unsigned) (same_i(x) - (y - (z + 5)));
    h = h * 31 + (unsigned) (same_i(x) & (y - (z + 5)));
    h = h * 31 + (unsigned) (same_i(x) | (y - (z + 5)));
    h = h * 31 + (unsigned) (same_i(x) ^ (y - (z + 5)));
    if (same_i(x) != (y - (z + 5))) h = h * 31 + 1;
    if (same_i(x) < (y - (z + 5))) h = h * 31 + 2;
    if (same_i(x) <= (y - (z + 5))) h = h * 31 + 3;
    if (same_i(x) == (y - (z + 5))) h = h * 31 + 4;
    if (same_i(x) > (y - (z + 5))) h = h * 31 + 5;
    if (same_i(x) >= (y - (z + 5))) h = h * 31 + 6;
    h = h * 31 + (same_i(x) != (y - (z + 5)));
    h = h * 31 + (same_i(x) < (y - (z + 5)));
    h = h * 31 + (same_i(x) <= (y - (z + 5)));
    h = h * 31 + (same_i(x) == (y - (z + 5)));
    h = h * 31 + (same_i(x) > (y - (z + 5)));
    h = h * 31 + (same_i(x) >= (y - (z + 5)));
    return h;
}
static unsigned waiting_i_9(unsigned h, int x, int y, int z)
{
    h = h * 31 + (unsigned) (same_i(x) + ((y ^ z) - s));
    h = h * 31 + (unsigned) (same_i(x) - ((y ^ z) - s));
    h = h * 31 + (unsigned) (same_i(x) & ((y ^ z) - s));
    h = h * 31 + (unsigned) (same_i(x) | ((y ^ z) - s));
    h = h * 31 + (unsigned) (same_i(x) ^ ((y ^ z) - s));
    if (same_i(x) != ((y ^ z) - s)) h = h * 31 + 1;
    if (same_i(x) < ((y ^ z) - s)) h = h * 31 + 2;
    if (same_i(x) <= ((y ^ z) - s)) h = h * 31 + 3;
    if (same_i(x) == ((y ^ z) - s)) h = h * 31 + 4;
    if (same_i(x) > ((y ^ z) - s)) h = h * 31 + 5;
    if (same_i(x) >= ((y ^ z) - s)) h = h * 31 + 6;
    h = h * 31 + (same_i(x) != ((y ^ z) - s));
    h = h * 31 + (same_i(x) < ((y ^ z) - s));
    h = h * 31 + (same_i(x) <= ((y ^ z) - s));
    h = h * 31 + (same_i(x) == ((y ^ z) - s));
    h = h * 31 + (same_i(x) > ((y ^ z) - s));
    h = h * 31 + (same_i(x) >= ((y ^ z) - s));
    return h;
}
static unsigned int same_u(unsigned int x) { return x; }
static unsigned waiting_u_0(unsigned h, unsigned int x, unsigned int y, unsigned int z)
{
    h = h * 31 + (unsigned) (same_u(x) + (y + z));
    h = h * 31 + (unsigned) (same_u(x) - (y + z));
    h = h * 31 + (unsigned) (same_u(x) & (y + z));
    h = h * 31 + (unsigned) (same_u(x) | (y + z));
    h = h * 31 + (unsigned) (same_u(x) ^ (y + z));
    if (same_u(x) != (y + z)) h = h * 31 + 1;
    if (same_u(x) < (y + z)) h = h * 31 + 2;
    if (same_u(x) <= (y + z)) h = h * 31 + 3;
    if (same_u(x) == (y + z)) h = h * 31 + 4;
    if (same_u(x) > (y + z)) h = h * 31 + 5;
    if (same_u(x) >= (y + z)) h = h * 31 + 6;
    h = h * 31 + (same_u(x) != (y + z));
    h = h * 31 + (same_u(x) < (y + z));
    h = h * 31 + (same_u(x) <= (y + z));
    h = h * 31 + (same_u(x) == (y + z));
    h = h * 31 + (same_u(x) > (y + z));
    h = h * 31 + (same_u(x) >= (y + z));
    return h;
}
static unsigned waiting_u_1(unsigned h, unsigned int x, unsigned int y, unsigned int z)
{
    h = h * 31 + (unsigned) (same_u(x) + (y - z));
    h = h * 31 + (unsigned) (same_u(x) - (y - z));
    h = h * 31 + (unsigned) (same_u(x) & (y - z));
    h = h * 31 + (unsigned) (same_u(x) | (y - z));
    h = h * 31 + (unsigned) (same_u(x) ^ (y - z));
    if (same_u(x) != (y - z)) h = h * 31 + 1;
    if (same_u(x) < (y - z)) h = h * 31 + 2;
    if (same_u(x) <= (y - z)) h = h * 31 + 3;
    if (same_u(x) == (y - z)) h = h * 31 + 4;
    if (same_u(x) > (y - z)) h = h * 31 + 5;
    if (same_u(x) >= (y - z)) h = h * 31 + 6;
    h = h * 31 + (same_u(x) != (y - z));
    h = h * 31 + (same_u(x) < (y - z));
    h = h * 31 + (same_u(x) <= (y - z));
    h = h * 31 + (same_u(x) == (y - z));
    h = h * 31 + (same_u(x) > (y - z));
    h = h * 31 + (same_u(x) >= (y - z));
    return h;
}
static unsigned waiting_u_2(unsigned h, unsigned int x, unsigned int y, unsigned int z)
{
    h = h * 31 + (unsigned) (same_u(x) + (y & z));
    h = h * 31 + (unsigned) (same_u(x) - (y & z));
    h = h * 31 + (unsigned) (same_u(x) & (y & z));
    h = h * 31 + (unsigned) (same_u(x) | (y & z));
    h = h * 31 + (unsigned) (same_u(x) ^ (y & z));
    if (same_u(x) != (y & z)) h = h * 31 + 1;
    if (same_u(x) < (y & z)) h = h * 31 + 2;
    if (same_u(x) <= (y & z)) h = h * 31 + 3;
    if (same_u(x) == (y & z)) h = h * 31 + 4;
    if (same_u(x) > (y & z)) h = h * 31 + 5;
    if (same_u(x) >= (y & z)) h = h * 31 + 6;
    h = h * 31 + (same_u(x) != (y & z));
    h = h * 31 + (same_u(x) < (y & z));
    h = h * 31 + (same_u(x) <= (y & z));
    h = h * 31 + (same_u(x) == (y & z));
    h = h * 31 + (same_u(x) > (y & z));
    h = h * 31 + (same_u(x) >= (y & z));
    return h;
}
static unsigned waiting_u_3(unsigned h, unsigned int x, unsigned int y, unsigned int z)
{
    h = h * 31 + (unsigned) (same_u(x) + (y | z));
    h = h * 31 + (unsigned) (same_u(x) - (y | z));
    h = h * 31 + (unsigned) (same_u(x) & (y | z));
    h = h * 31 + (unsigned) (same_u(x) | (y | z));
    h = h * 31 + (unsigned) (same_u(x) ^ (y | z));
    if (same_u(x) != (y | z)) h = h * 31 + 1;
    if (same_u(x) < (y | z)) h = h * 31 + 2;
    if (same_u(x) <= (y | z)) h = h * 31 + 3;
    if (same_u(x) == (y | z)) h = h * 31 + 4;
    if (same_u(x) > (y | z)) h = h * 31 + 5;
    if (same_u(x) >= (y | z)) h = h * 31 + 6;
    h = h * 31 + (same_u(x) != (y | z));
    h = h * 31 + (same_u(x) < (y | z));
    h = h * 31 + (same_u(x) <= (y | z));
    h = h * 31 + (same_u(x) == (y | z));
    h = h * 31 + (same_u(x) > (y | z));
    h = h * 31 + (same_u(x) >= (y | z));
    return h;
}
static unsigned waiting_u_4(unsigned h, unsigned int x, unsigned int y, unsigned int z)
{
    h = h * 31 + (unsigned) (same_u(x) + (y ^ z));
    h = h * 31 + (unsigned) (same_u(x) - (y ^ z));
    h = h * 31 + (unsigned) (same_u(x) & (y ^ z));
    h = h * 31 + (unsigned) (same_u(x) | (y ^ z));
    h = h * 31 + (unsigned) (same_u(x) ^ (y ^ z));
    if (same_u(x) != (y ^ z)) h = h * 31 + 1;
    if (same_u(x) < (y ^ z)) h = h * 31 + 2;
    if (same_u(x) <= (y ^ z)) h = h * 31 + 3;
    if (same_u(x) == (y ^ z)) h = h * 31 + 4;
    if (same_u(x) > (y ^ z)) h = h * 31 + 5;
    if (same_u(x) >= (y ^ z)) h = h * 31 + 6;
    h = h * 31 + (same_u(x) != (y ^ z));
    h = h * 31 + (same_u(x) < (y ^ z));
    h = h * 31 + (same_u(x) <= (y ^ z));
    h = h * 31 + (same_u(x) == (y ^ z));
    h = h * 31 + (same_u(x) > (y ^ z));
    h = h * 31 + (same_u(x) >= (y ^ z));
    return h;
}
static unsigned waiting_u_5(unsigned h, unsigned int x, unsigned int y, unsigned int z)
{
    h = h * 31 + (unsigned) (same_u(x) + (y - 7));
    h = h * 31 + (unsigned) (same_u(x) - (y - 7));
    h = h * 31 + (unsigned) (same_u(x) & (y - 7));
    h = h * 31 + (unsigned) (same_u(x) | (y - 7));
    h = h * 31 + (unsigned) (same_u(x) ^ (y - 7));
    if (same_u(x) != (y - 7)) h = h * 31 + 1;
    if (same_u(x) < (y - 7)) h = h * 31 + 2;
    if (same_u(x) <= (y - 7)) h = h * 31 + 3;
    if (same_u(x) == (y - 7)) h = h * 31 + 4;
    if (same_u(x) > (y - 7)) h = h * 31 + 5;
    if (same_u(x) >= (y - 7)) h = h * 31 + 6;
    h = h * 31 + (same_u(x) != (y - 7));
    h = h * 31 + (same_u(x) < (y - 7));
    h = h * 31 + (same_u(x) <= (y - 7));
    h = h * 31 + (same_u(x) == (y - 7));
    h = h * 31 + (same_u(x) > (y - 7));
    h = h * 31 + (same_u(x) >= (y - 7));
    return h;
}
static unsigned waiting_u_6(unsigned h, unsigned int x, unsigned int y, unsigned int z)
{
    h = h * 31 + (unsigned) (same_u(x) + (y + 1000));
    h = h * 31 + (unsigned) (same_u(x) - (y + 1000));
    h = h * 31 + (unsigned) (same_u(x) & (y + 1000));
    h = h * 31 + (unsigned) (same_u(x) | (y + 1000));
    h = h * 31 + (unsigned) (same_u(x) ^ (y + 1000));
    if (same_u(x) != (y + 1000)) h = h * 31 + 1;
    if (same_u(x) < (y + 1000)) h = h * 31 + 2;
    if (same_u(x) <= (y + 1000)) h = h * 31 + 3;
    if (same_u(x) == (y + 1000)) h = h * 31 + 4;
    if (same_u(x) > (y + 1000)) h = h * 31 + 5;
    if (same_u(x) >= (y + 1000)) h = h * 31 + 6;
    h = h * 31 + (same_u(x) != (y + 1000));
    h = h * 31 + (same_u(x) < (y + 1000));
    h = h * 31 + (same_u(x) <= (y + 1000));
    h = h * 31 + (same_u(x) == (y + 1000));
    h = h * 31 + (same_u(x) > (y + 1000));
    h = h * 31 + (same_u(x) >= (y + 1000));
    return h;
}
static unsigned waiting_u_7(unsigned h, unsigned int x, unsigned int y, unsigned int z)
{
    h = h * 31 + (unsigned) (same_u(x) + (y & 15));
    h = h * 31 + (unsigned) (same_u(x) - (y & 15));
    h = h * 31 + (unsigned) (same_u(x) & (y & 15));
    h = h * 31 + (unsigned) (same_u(x) | (y & 15));
    h = h * 31 + (unsigned) (same_u(x) ^ (y & 15));
    if (same_u(x) != (y & 15)) h = h * 31 + 1;
    if (same_u(x) < (y & 15)) h = h * 31 + 2;
    if (same_u(x) <= (y & 15)) h = h * 31 + 3;
    if (same_u(x) == (y & 15)) h = h * 31 + 4;
    if (same_u(x) > (y & 15)) h = h * 31 + 5;
    if (same_u(x) >= (y & 15)) h = h * 31 + 6;
    h = h * 31 + (same_u(x) != (y & 15));
    h = h * 31 + (same_u(x) < (y & 15));
    h = h * 31 + (same_u(x) <= (y & 15));
    h = h * 31 + (same_u(x) == (y & 15));
    h = h * 31 + (same_u(x) > (y & 15));
    h = h * 31 + (same_u(x) >= (y & 15));
    return h;
}
static unsigned waiting_u_8(unsigned h, unsigned int x, unsigned int y, unsigned int z)
{
    h = h * 31 + (unsigned) (same_u(x) + (y - (z + 5)));
    h = h * 31 + (unsigned) (same_u(x) - (y - (z + 5)));
    h = h * 31 + (unsigned) (same_u(x) & (y - (z + 5)));
    h = h * 31 + (unsigned) (same_u(x) | (y - (z + 5)));
    h = h * 31 + (unsigned) (same_u(x) ^ (y - (z + 5)));
    if (same_u(x) != (y - (z + 5))) h = h * 31 + 1;
    if (same_u(x) < (y - (z + 5))) h = h * 31 + 2;
    if (same_u(x) <= (y - (z + 5))) h = h * 31 + 3;
    if (same_u(x) == (y - (z + 5))) h = h * 31 + 4;
    if (same_u(x) > (y - (z + 5))) h = h * 31 + 5;
    if (same_u(x) >= (y - (z + 5))) h = h * 31 + 6;
    h = h * 31 + (same_u(x) != (y - (z + 5)));
    h = h * 31 + (same_u(x) < (y - (z + 5)));
    h = h * 31 + (same_u(x) <= (y - (z + 5)));
    h = h * 31 + (same_u(x) == (y - (z + 5)));
    h = h * 31 + (same_u(x) > (y - (z + 5)));
    h = h * 31 + (same_u(x) >= (y - (z + 5)));
    return h;
}
static unsigned waiting_u_9(unsigned h, unsigned int x, unsigned int y, unsigned int z)
{
    h = h * 31 + (unsigned) (same_u(x) + ((y ^ z) - s));
    h = h * 31 + (unsigned) (same_u(x) - ((y ^ z) - s));
    h = h * 31 + (unsigned) (same_u(x) & ((y ^ z) - s));
    h = h * 31 + (unsigned) (same_u(x) | ((y ^ z) - s));
    h = h * 31 + (unsigned) (same_u(x) ^ ((y ^ z) - s));
    if (same_u(x) != ((y ^ z) - s)) h = h * 31 + 1;
    if (same_u(x) < ((y ^ z) - s)) h = h * 31 + 2;
    if (same_u(x) <= ((y ^ z) - s)) h = h * 31 + 3;
    if (same_u(x) == ((y ^ z) - s)) h = h * 31 + 4;
    if (same_u(x) > ((y ^ z) - s)) h = h * 31 + 5;
    if (same_u(x) >= ((y ^ z) - s)) h = h * 31 + 6;
    h = h * 31 + (same_u(x) != ((y ^ z) - s));
    h = h * 31 + (same_u(x) < ((y ^ z) - s));
    h = h * 31 + (same_u(x) <= ((y ^ z) - s));
    h = h * 31 + (same_u(x) == ((y ^ z) - s));
    h = h * 31 + (same_u(x) > ((y ^ z) - s));
    h = h * 31 + (same_u(x) >= ((y ^ z) - s));
    return h;
}
static char text[20];
static int numbers[20];
static char *letter(int n) { return text + n; }
static int *number_at(int n) { return numbers + n; }
static void pointers(int y)
{
    item(letter(3) + (y + 4) - text); item(letter(9) - (y + 4) - text); item(letter(9) - (text + 2)); item(number_at(9) - (numbers + 2));
    item(letter(3) < text + y); item(letter(3) == text + y); item(number_at(7) >= numbers + 7); item(number_at(6) != numbers + 7); end();
}
int main(void)
{
    int i, j, k; unsigned h;
    h = 0; for (i = 0; i < 5; i++) for (j = 0; j < 5; j++) for (k = 0; k < 5; k += 2) h = waiting_i_0(h, values[i], values[j], values[k]); item(h);
    h = 0; for (i = 0; i < 5; i++) for (j = 0; j < 5; j++) for (k = 0; k < 5; k += 2) h = waiting_i_1(h, values[i], values[j], values[k]); item(h);
    h = 0; for (i = 0; i < 5; i++) for (j = 0; j < 5; j++) for (k = 0; k < 5; k += 2) h = waiting_i_2(h, values[i], values[j], values[k]); item(h);
    h = 0; for (i = 0; i < 5; i++) for (j = 0; j < 5; j++) for (k = 0; k < 5; k += 2) h = waiting_i_3(h, values[i], values[j], values[k]); item(h);
    h = 0; for (i = 0; i < 5; i++) for (j = 0; j < 5; j++) for (k = 0; k < 5; k += 2) h = waiting_i_4(h, values[i], values[j], values[k]); item(h);
    h = 0; for (i = 0; i < 5; i++) for (j = 0; j < 5; j++) for (k = 0; k < 5; k += 2) h = waiting_i_5(h, values[i], values[j], values[k]); item(h);
    h = 0; for (i = 0; i < 5; i++) for (j = 0; j < 5; j++) for (k = 0; k < 5; k += 2) h = waiting_i_6(h, values[i], values[j], values[k]); item(h);
    h = 0; for (i = 0; i < 5; i++) for (j = 0; j < 5; j++) for (k = 0; k < 5; k += 2) h = waiting_i_7(h, values[i], values[j], values[k]); item(h);
    h = 0; for (i = 0; i < 5; i++) for (j = 0; j < 5; j++) for (k = 0; k < 5; k += 2) h = waiting_i_8(h, values[i], values[j], values[k]); item(h);
    h = 0; for (i = 0; i < 5; i++) for (j = 0; j < 5; j++) for (k = 0; k < 5; k += 2) h = waiting_i_9(h, values[i], values[j], values[k]); item(h);
    h = 0; for (i = 0; i < 5; i++) for (j = 0; j < 5; j++) for (k = 0; k < 5; k += 2) h = waiting_u_0(h, values[i], values[j], values[k]); item(h);
    h = 0; for (i = 0; i < 5; i++) for (j = 0; j < 5; j++) for (k = 0; k < 5; k += 2) h = waiting_u_1(h, values[i], values[j], values[k]); item(h);
    h = 0; for (i = 0; i < 5; i++) for (j = 0; j < 5; j++) for (k = 0; k < 5; k += 2) h = waiting_u_2(h, values[i], values[j], values[k]); item(h);
    h = 0; for (i = 0; i < 5; i++) for (j = 0; j < 5; j++) for (k = 0; k < 5; k += 2) h = waiting_u_3(h, values[i], values[j], values[k]); item(h);
    h = 0; for (i = 0; i < 5; i++) for (j = 0; j < 5; j++) for (k = 0; k < 5; k += 2) h = waiting_u_4(h, values[i], values[j], values[k]); item(h);
    h = 0; for (i = 0; i < 5; i++) for (j = 0; j < 5; j++) for (k = 0; k < 5; k += 2) h = waiting_u_5(h, values[i], values[j], values[k]); item(h);
    h = 0; for (i = 0; i < 5; i++) for (j = 0; j < 5; j++) for (k = 0; k < 5; k += 2) h = waiting_u_6(h, values[i], values[j], values[k]); item(h);
    h = 0; for (i = 0; i < 5; i++) for (j = 0; j < 5; j++) for (k = 0; k < 5; k += 2) h = waiting_u_7(h, values[i], values[j], values[k]); item(h);
    h = 0; for (i = 0; i < 5; i++) for (j = 0; j < 5; j++) for (k = 0; k < 5; k += 2) h = waiting_u_8(h, values[i], values[j], values[k]); item(h);
    h = 0; for (i = 0; i < 5; i++) for (j = 0; j < 5; j++) for (k = 0; k < 5; k += 2) h = waiting_u_9(h, values[i], values[j], values[k]); item(h);
    end(); pointers(3);
    return 0;
}
