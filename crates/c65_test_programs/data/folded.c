int putchar(int c);
static unsigned long sum;
static void mix(unsigned long v) { sum = sum + sum + sum + v; }
static void hex(unsigned long n, int digits) { if (digits > 1) hex(n >> 4, digits - 1); putchar("0123456789abcdef"[n & 15]); }
static void show(int end) { hex(sum, 8); putchar(end); sum = 0; }
static unsigned long table_uc_uc[] = {
    ((unsigned char) 127) + ((unsigned char) 0),
    ((unsigned char) 128) - ((unsigned char) 200),
    ((unsigned char) 2) * ((unsigned char) 255),
    ((unsigned char) 127) / ((unsigned char) 127),
    ((unsigned char) 200) % ((unsigned char) 2),
    ((unsigned char) 7) << ((unsigned char) 1),
    ((unsigned char) 1) >> ((unsigned char) 15),
    ((unsigned char) 200) & ((unsigned char) 1),
    ((unsigned char) 128) | ((unsigned char) 1),
    ((unsigned char) 200) ^ ((unsigned char) 1),
    ((unsigned char) 127) == ((unsigned char) 2),
    ((unsigned char) 127) != ((unsigned char) 1),
    ((unsigned char) 200) < ((unsigned char) 128),
    ((unsigned char) 127) > ((unsigned char) 7),
    ((unsigned char) 7) <= ((unsigned char) 7),
    ((unsigned char) 0) >= ((unsigned char) 0)
};
static unsigned long table_uc_sc[] = {
    ((unsigned char) 0) + ((signed char) -128),
    ((unsigned char) 128) - ((signed char) 0),
    ((unsigned char) 200) * ((signed char) 0),
    ((unsigned char) 255) / ((signed char) -2),
    ((unsigned char) 2) % ((signed char) -127),
    ((unsigned char) 128) << ((signed char) 7),
    ((unsigned char) 2) >> ((signed char) 2),
    ((unsigned char) 200) & ((signed char) 7),
    ((unsigned char) 0) | ((signed char) 0),
    ((unsigned char) 127) ^ ((signed char) 7),
    ((unsigned char) 0) == ((signed char) -127),
    ((unsigned char) 200) != ((signed char) -127),
    ((unsigned char) 128) < ((signed char) -2),
    ((unsigned char) 200) > ((signed char) 0),
    ((unsigned char) 255) <= ((signed char) 7),
    ((unsigned char) 1) >= ((signed char) -1)
};
static unsigned long table_uc_s[] = {
    ((unsigned char) 127) + ((short) -1),
    ((unsigned char) 0) - ((short) -32767),
    ((unsigned char) 255) * ((short) -32768),
    ((unsigned char) 128) / ((short) 32767),
    ((unsigned char) 7) % ((short) -256),
    ((unsigned char) 200) << ((short) 2),
    ((unsigned char) 0) >> ((short) 7),
    ((unsigned char) 127) & ((short) 0),
    ((unsigned char) 7) | ((short) -32767),
    ((unsigned char) 1) ^ ((short) 32767),
    ((unsigned char) 127) == ((short) 255),
    ((unsigned char) 127) != ((short) -32767),
    ((unsigned char) 1) < ((short) -32767),
    ((unsigned char) 7) > ((short) 32767),
    ((unsigned char) 2) <= ((short) -1),
    ((unsigned char) 0) >= ((short) 32767)
};
static unsigned long table_uc_us[] = {
    ((unsigned char) 2) + ((unsigned short) 256),
    ((unsigned char) 7) - ((unsigned short) 9),
    ((unsigned char) 255) * ((unsigned short) 256),
    ((unsigned char) 200) / ((unsigned short) 65535),
    ((unsigned char) 255) % ((unsigned short) 65535),
    ((unsigned char) 7) << ((unsigned short) 9),
    ((unsigned char) 255) >> ((unsigned short) 2),
    ((unsigned char) 200) & ((unsigned short) 255),
    ((unsigned char) 200) | ((unsigned short) 32767),
    ((unsigned char) 128) ^ ((unsigned short) 32767),
    ((unsigned char) 1) == ((unsigned short) 1),
    ((unsigned char) 127) != ((unsigned short) 32768),
    ((unsigned char) 128) < ((unsigned short) 9),
    ((unsigned char) 2) > ((unsigned short) 65535),
    ((unsigned char) 7) <= ((unsigned short) 65535),
    ((unsigned char) 7) >= ((unsigned short) 1)
};
static unsigned long table_uc_i[] = {
    ((unsigned char) 0) + 15,
    ((unsigned char) 0) - (-128),
    ((unsigned char) 0) * (-128),
    ((unsigned char) 255) / (-1),
    ((unsigned char) 255) % 256,
    ((unsigned char) 127) << 9,
    ((unsigned char) 0) >> 15,
    ((unsigned char) 127) & (-1),
    ((unsigned char) 200) | (-32767 - 1),
    ((unsigned char) 255) ^ (-32767 - 1),
    ((unsigned char) 1) == 15,
    ((unsigned char) 2) != 256,
    ((unsigned char) 1) < (-257),
    ((unsigned char) 0) > (-257),
    ((unsigned char) 7) <= 256,
    ((unsigned char) 7) >= (-257)
};
static unsigned long table_uc_u[] = {
    ((unsigned char) 7) + 40000u,
    ((unsigned char) 128) - 16u,
    ((unsigned char) 1) * 255u,
    ((unsigned char) 200) / 65535u,
    ((unsigned char) 200) % 32768u,
    ((unsigned char) 127) << 7u,
    ((unsigned char) 1) >> 0u,
    ((unsigned char) 0) & 255u,
    ((unsigned char) 128) | 32768u,
    ((unsigned char) 1) ^ 40000u,
    ((unsigned char) 2) == 40000u,
    ((unsigned char) 200) != 127u,
    ((unsigned char) 255) < 1u,
    ((unsigned char) 2) > 127u,
    ((unsigned char) 127) <= 16u,
    ((unsigned char) 127) >= 255u
};
static unsigned long table_uc_l[] = {
    ((unsigned char) 0) + 65536L,
    ((unsigned char) 2) - 65536L,
    ((unsigned char) 255) * (-1L),
    ((unsigned char) 1) / 65535L,
    ((unsigned char) 127) % 1L,
    ((unsigned char) 127) << 9L,
    ((unsigned char) 128) >> 9L,
    ((unsigned char) 1) & 0L,
    ((unsigned char) 1) | 65536L,
    ((unsigned char) 1) ^ 0L,
    ((unsigned char) 255) == 0L,
    ((unsigned char) 0) != (-65537L),
    ((unsigned char) 0) < 2147483647L,
    ((unsigned char) 0) > 255L,
    ((unsigned char) 128) <= 0L,
    ((unsigned char) 7) >= (-32769L)
};
static unsigned long table_uc_ul[] = {
    ((unsigned char) 255) + 4294967295UL,
    ((unsigned char) 128) - 4294967295UL,
    ((unsigned char) 127) * 65536UL,
    ((unsigned char) 128) / 65535UL,
    ((unsigned char) 7) % 2147483648UL,
    ((unsigned char) 2) << 0UL,
    ((unsigned char) 128) >> 2UL,
    ((unsigned char) 127) & 65535UL,
    ((unsigned char) 127) | 0UL,
    ((unsigned char) 1) ^ 31UL,
    ((unsigned char) 1) == 1UL,
    ((unsigned char) 0) != 0UL,
    ((unsigned char) 7) < 65535UL,
    ((unsigned char) 2) > 65535UL,
    ((unsigned char) 127) <= 65535UL,
    ((unsigned char) 255) >= 65536UL
};
static void from_uc(void)
{
    int i;
    mix(((unsigned char) 2) + ((unsigned char) 127));
    mix(((unsigned char) 128) - ((unsigned char) 128));
    mix(((unsigned char) 200) * ((unsigned char) 7));
    mix(((unsigned char) 200) / ((unsigned char) 200));
    mix(((unsigned char) 255) % ((unsigned char) 1));
    mix(((unsigned char) 0) << ((unsigned char) 15));
    mix(((unsigned char) 0) >> ((unsigned char) 2));
    mix(((unsigned char) 7) & ((unsigned char) 200));
    mix(((unsigned char) 200) | ((unsigned char) 127));
    mix(((unsigned char) 255) ^ ((unsigned char) 1));
    mix(((unsigned char) 1) == ((unsigned char) 128));
    mix(((unsigned char) 1) != ((unsigned char) 2));
    mix(((unsigned char) 127) < ((unsigned char) 127));
    mix(((unsigned char) 128) > ((unsigned char) 2));
    mix(((unsigned char) 128) <= ((unsigned char) 255));
    mix(((unsigned char) 127) >= ((unsigned char) 0));
    for (i = 0; i < 16; i++) mix(table_uc_uc[i]);
    show(' ');
    mix(((unsigned char) 2) + ((signed char) -127));
    mix(((unsigned char) 0) - ((signed char) 127));
    mix(((unsigned char) 127) * ((signed char) -127));
    mix(((unsigned char) 127) / ((signed char) -1));
    mix(((unsigned char) 200) % ((signed char) -1));
    mix(((unsigned char) 0) << ((signed char) 7));
    mix(((unsigned char) 127) >> ((signed char) 2));
    mix(((unsigned char) 7) & ((signed char) -2));
    mix(((unsigned char) 255) | ((signed char) 0));
    mix(((unsigned char) 7) ^ ((signed char) 1));
    mix(((unsigned char) 255) == ((signed char) 1));
    mix(((unsigned char) 255) != ((signed char) 0));
    mix(((unsigned char) 0) < ((signed char) 0));
    mix(((unsigned char) 0) > ((signed char) -2));
    mix(((unsigned char) 127) <= ((signed char) -127));
    mix(((unsigned char) 7) >= ((signed char) 7));
    for (i = 0; i < 16; i++) mix(table_uc_sc[i]);
    show(' ');
    mix(((unsigned char) 255) + ((short) -32767));
    mix(((unsigned char) 2) - ((short) -32767));
    mix(((unsigned char) 127) * ((short) -32768));
    mix(((unsigned char) 2) / ((short) -32767));
    mix(((unsigned char) 127) % ((short) 3));
    mix(((unsigned char) 7) << ((short) 1));
    mix(((unsigned char) 0) >> ((short) 7));
    mix(((unsigned char) 200) & ((short) -32768));
    mix(((unsigned char) 7) | ((short) 32767));
    mix(((unsigned char) 127) ^ ((short) -32767));
    mix(((unsigned char) 255) == ((short) 255));
    mix(((unsigned char) 200) != ((short) 255));
    mix(((unsigned char) 7) < ((short) 32767));
    mix(((unsigned char) 0) > ((short) 3));
    mix(((unsigned char) 128) <= ((short) -256));
    mix(((unsigned char) 255) >= ((short) 3));
    for (i = 0; i < 16; i++) mix(table_uc_s[i]);
    show(' ');
    mix(((unsigned char) 255) + ((unsigned short) 255));
    mix(((unsigned char) 200) - ((unsigned short) 32767));
    mix(((unsigned char) 128) * ((unsigned short) 32767));
    mix(((unsigned char) 127) / ((unsigned short) 256));
    mix(((unsigned char) 0) % ((unsigned short) 255));
    mix(((unsigned char) 127) << ((unsigned short) 0));
    mix(((unsigned char) 7) >> ((unsigned short) 1));
    mix(((unsigned char) 7) & ((unsigned short) 1));
    mix(((unsigned char) 1) | ((unsigned short) 32767));
    mix(((unsigned char) 0) ^ ((unsigned short) 1));
    mix(((unsigned char) 0) == ((unsigned short) 9));
    mix(((unsigned char) 7) != ((unsigned short) 9));
    mix(((unsigned char) 200) < ((unsigned short) 65535));
    mix(((unsigned char) 200) > ((unsigned short) 0));
    mix(((unsigned char) 1) <= ((unsigned short) 255));
    mix(((unsigned char) 255) >= ((unsigned short) 1));
    for (i = 0; i < 16; i++) mix(table_uc_us[i]);
    show(' ');
    mix(((unsigned char) 128) + (-257));
    mix(((unsigned char) 200) - 15);
    mix(((unsigned char) 2) * 15);
    mix(((unsigned char) 200) / 1);
    mix(((unsigned char) 200) % (-1));
    mix(((unsigned char) 128) << 9);
    mix(((unsigned char) 255) >> 2);
    mix(((unsigned char) 127) & 15);
    mix(((unsigned char) 2) | 32767);
    mix(((unsigned char) 2) ^ 15);
    mix(((unsigned char) 1) == 15);
    mix(((unsigned char) 7) != (-257));
    mix(((unsigned char) 128) < 32767);
    mix(((unsigned char) 127) > (-32767 - 1));
    mix(((unsigned char) 1) <= (-1));
    mix(((unsigned char) 127) >= (-1));
    for (i = 0; i < 16; i++) mix(table_uc_i[i]);
    show(' ');
    mix(((unsigned char) 1) + 127u);
    mix(((unsigned char) 1) - 32768u);
    mix(((unsigned char) 0) * 1u);
    mix(((unsigned char) 0) / 40000u);
    mix(((unsigned char) 128) % 1u);
    mix(((unsigned char) 200) << 0u);
    mix(((unsigned char) 2) >> 2u);
    mix(((unsigned char) 2) & 127u);
    mix(((unsigned char) 255) | 127u);
    mix(((unsigned char) 2) ^ 40000u);
    mix(((unsigned char) 1) == 1u);
    mix(((unsigned char) 1) != 255u);
    mix(((unsigned char) 0) < 255u);
    mix(((unsigned char) 255) > 40000u);
    mix(((unsigned char) 0) <= 255u);
    mix(((unsigned char) 0) >= 255u);
    for (i = 0; i < 16; i++) mix(table_uc_u[i]);
    show(' ');
    mix(((unsigned char) 127) + (-1L));
    mix(((unsigned char) 7) - 65535L);
    mix(((unsigned char) 0) * 0L);
    mix(((unsigned char) 1) / 255L);
    mix(((unsigned char) 0) % (-2147483647L - 1));
    mix(((unsigned char) 1) << 1L);
    mix(((unsigned char) 128) >> 8L);
    mix(((unsigned char) 200) & (-32769L));
    mix(((unsigned char) 127) | (-1L));
    mix(((unsigned char) 7) ^ 65535L);
    mix(((unsigned char) 0) == 2147483647L);
    mix(((unsigned char) 7) != (-1L));
    mix(((unsigned char) 0) < 65536L);
    mix(((unsigned char) 0) > 1L);
    mix(((unsigned char) 1) <= (-1L));
    mix(((unsigned char) 200) >= 65536L);
    for (i = 0; i < 16; i++) mix(table_uc_l[i]);
    show(' ');
    mix(((unsigned char) 2) + 1UL);
    mix(((unsigned char) 255) - 0UL);
    mix(((unsigned char) 200) * 4294967295UL);
    mix(((unsigned char) 2) / 31UL);
    mix(((unsigned char) 7) % 65535UL);
    mix(((unsigned char) 200) << 7UL);
    mix(((unsigned char) 2) >> 15UL);
    mix(((unsigned char) 128) & 65535UL);
    mix(((unsigned char) 127) | 65536UL);
    mix(((unsigned char) 128) ^ 4294967295UL);
    mix(((unsigned char) 0) == 1UL);
    mix(((unsigned char) 0) != 65535UL);
    mix(((unsigned char) 200) < 0UL);
    mix(((unsigned char) 7) > 0UL);
    mix(((unsigned char) 255) <= 31UL);
    mix(((unsigned char) 200) >= 65536UL);
    for (i = 0; i < 16; i++) mix(table_uc_ul[i]);
    show(' ');
    putchar(10);
}
static unsigned long table_sc_uc[] = {
    ((signed char) -1) + ((unsigned char) 1),
    ((signed char) 7) - ((unsigned char) 128),
    ((signed char) -127) * ((unsigned char) 7),
    ((signed char) -127) / ((unsigned char) 128),
    ((signed char) -127) % ((unsigned char) 2),
    ((signed char) 0) << ((unsigned char) 9),
    ((signed char) 1) >> ((unsigned char) 1),
    ((signed char) -2) & ((unsigned char) 7),
    ((signed char) 7) | ((unsigned char) 255),
    ((signed char) -127) ^ ((unsigned char) 2),
    ((signed char) 1) == ((unsigned char) 7),
    ((signed char) 1) != ((unsigned char) 1),
    ((signed char) 127) < ((unsigned char) 7),
    ((signed char) 0) > ((unsigned char) 2),
    ((signed char) 0) <= ((unsigned char) 2),
    ((signed char) -1) >= ((unsigned char) 2)
};
static unsigned long table_sc_sc[] = {
    ((signed char) -1) + ((signed char) 0),
    ((signed char) 0) - ((signed char) 1),
    ((signed char) -127) * ((signed char) -127),
    ((signed char) 127) / ((signed char) -128),
    ((signed char) -127) % ((signed char) -128),
    ((signed char) 127) << ((signed char) 15),
    ((signed char) -1) >> ((signed char) 0),
    ((signed char) -2) & ((signed char) 1),
    ((signed char) -1) | ((signed char) 0),
    ((signed char) -1) ^ ((signed char) 127),
    ((signed char) 7) == ((signed char) 7),
    ((signed char) -2) != ((signed char) 0),
    ((signed char) 1) < ((signed char) -2),
    ((signed char) -2) > ((signed char) -128),
    ((signed char) 127) <= ((signed char) 7),
    ((signed char) 7) >= ((signed char) 1)
};
static unsigned long table_sc_s[] = {
    ((signed char) -2) + ((short) 0),
    ((signed char) -128) - ((short) -256),
    ((signed char) 7) * ((short) -32768),
    ((signed char) 127) / ((short) 255),
    ((signed char) 1) % ((short) -32767),
    ((signed char) -1) << ((short) 8),
    ((signed char) -128) >> ((short) 2),
    ((signed char) -1) & ((short) 0),
    ((signed char) 127) | ((short) -32767),
    ((signed char) -2) ^ ((short) 0),
    ((signed char) 0) == ((short) -256),
    ((signed char) 0) != ((short) 0),
    ((signed char) 1) < ((short) -1),
    ((signed char) 7) > ((short) -1),
    ((signed char) 0) <= ((short) 32767),
    ((signed char) 127) >= ((short) 255)
};
static unsigned long table_sc_us[] = {
    ((signed char) 1) + ((unsigned short) 32768),
    ((signed char) -1) - ((unsigned short) 255),
    ((signed char) 7) * ((unsigned short) 65535),
    ((signed char) -127) / ((unsigned short) 32768),
    ((signed char) 7) % ((unsigned short) 65535),
    ((signed char) -1) << ((unsigned short) 9),
    ((signed char) 1) >> ((unsigned short) 0),
    ((signed char) -2) & ((unsigned short) 1),
    ((signed char) 1) | ((unsigned short) 32768),
    ((signed char) -128) ^ ((unsigned short) 1),
    ((signed char) -2) == ((unsigned short) 32767),
    ((signed char) -1) != ((unsigned short) 256),
    ((signed char) 0) < ((unsigned short) 65535),
    ((signed char) 0) > ((unsigned short) 0),
    ((signed char) 7) <= ((unsigned short) 256),
    ((signed char) -2) >= ((unsigned short) 0)
};
static unsigned long table_sc_i[] = {
    ((signed char) -127) + (-128),
    ((signed char) -128) - 1,
    ((signed char) 7) * (-128),
    ((signed char) -1) / 256,
    ((signed char) 1) % (-1),
    ((signed char) -128) << 2,
    ((signed char) 127) >> 0,
    ((signed char) -2) & (-1),
    ((signed char) 127) | (-257),
    ((signed char) -1) ^ 15,
    ((signed char) 127) == 15,
    ((signed char) -1) != (-257),
    ((signed char) 7) < 15,
    ((signed char) 1) > 256,
    ((signed char) -1) <= (-128),
    ((signed char) -1) >= (-128)
};
static unsigned long table_sc_u[] = {
    ((signed char) -128) + 65535u,
    ((signed char) -127) - 127u,
    ((signed char) -127) * 255u,
    ((signed char) -2) / 1u,
    ((signed char) -128) % 65535u,
    ((signed char) -1) << 2u,
    ((signed char) 127) >> 2u,
    ((signed char) -2) & 32768u,
    ((signed char) -2) | 32768u,
    ((signed char) 7) ^ 255u,
    ((signed char) -128) == 0u,
    ((signed char) -128) != 1u,
    ((signed char) 127) < 1u,
    ((signed char) 1) > 65535u,
    ((signed char) 7) <= 16u,
    ((signed char) -2) >= 65535u
};
static unsigned long table_sc_l[] = {
    ((signed char) -127) + 65536L,
    ((signed char) -1) - 65535L,
    ((signed char) 1) * 0L,
    ((signed char) 1) / 1L,
    ((signed char) -2) % (-2147483647L - 1),
    ((signed char) -2) << 9L,
    ((signed char) -1) >> 15L,
    ((signed char) 127) & 1L,
    ((signed char) -1) | 65536L,
    ((signed char) -2) ^ 2147483647L,
    ((signed char) -127) == 65536L,
    ((signed char) -127) != 1L,
    ((signed char) 0) < 2147483647L,
    ((signed char) 0) > 2147483647L,
    ((signed char) -127) <= 65535L,
    ((signed char) 0) >= (-2147483647L - 1)
};
static unsigned long table_sc_ul[] = {
    ((signed char) 127) + 65535UL,
    ((signed char) -128) - 4294967295UL,
    ((signed char) -2) * 4294967295UL,
    ((signed char) 127) / 65536UL,
    ((signed char) 0) % 2147483648UL,
    ((signed char) -127) << 9UL,
    ((signed char) 127) >> 15UL,
    ((signed char) -127) & 2147483648UL,
    ((signed char) -2) | 0UL,
    ((signed char) -2) ^ 1UL,
    ((signed char) -1) == 1UL,
    ((signed char) 1) != 1UL,
    ((signed char) -2) < 2147483647UL,
    ((signed char) -127) > 65536UL,
    ((signed char) -2) <= 0UL,
    ((signed char) 1) >= 0UL
};
static void from_sc(void)
{
    int i;
    mix(((signed char) 1) + ((unsigned char) 1));
    mix(((signed char) 7) - ((unsigned char) 255));
    mix(((signed char) 1) * ((unsigned char) 255));
    mix(((signed char) 0) / ((unsigned char) 1));
    mix(((signed char) -2) % ((unsigned char) 2));
    mix(((signed char) -2) << ((unsigned char) 0));
    mix(((signed char) -1) >> ((unsigned char) 15));
    mix(((signed char) -1) & ((unsigned char) 128));
    mix(((signed char) 127) | ((unsigned char) 255));
    mix(((signed char) 1) ^ ((unsigned char) 1));
    mix(((signed char) 0) == ((unsigned char) 200));
    mix(((signed char) -1) != ((unsigned char) 2));
    mix(((signed char) 127) < ((unsigned char) 200));
    mix(((signed char) -127) > ((unsigned char) 7));
    mix(((signed char) -128) <= ((unsigned char) 200));
    mix(((signed char) -127) >= ((unsigned char) 128));
    for (i = 0; i < 16; i++) mix(table_sc_uc[i]);
    show(' ');
    mix(((signed char) 127) + ((signed char) 1));
    mix(((signed char) -2) - ((signed char) 7));
    mix(((signed char) 7) * ((signed char) 127));
    mix(((signed char) 1) / ((signed char) 127));
    mix(((signed char) 0) % ((signed char) -128));
    mix(((signed char) -127) << ((signed char) 7));
    mix(((signed char) -127) >> ((signed char) 9));
    mix(((signed char) -1) & ((signed char) 0));
    mix(((signed char) 127) | ((signed char) -1));
    mix(((signed char) -1) ^ ((signed char) -127));
    mix(((signed char) 127) == ((signed char) -2));
    mix(((signed char) 7) != ((signed char) -1));
    mix(((signed char) 0) < ((signed char) 7));
    mix(((signed char) -128) > ((signed char) 127));
    mix(((signed char) 0) <= ((signed char) 0));
    mix(((signed char) -128) >= ((signed char) 1));
    for (i = 0; i < 16; i++) mix(table_sc_sc[i]);
    show(' ');
    mix(((signed char) 127) + ((short) -32768));
    mix(((signed char) 1) - ((short) 0));
    mix(((signed char) -1) * ((short) 0));
    mix(((signed char) -2) / ((short) -32768));
    mix(((signed char) 7) % ((short) 32767));
    mix(((signed char) 0) << ((short) 9));
    mix(((signed char) -127) >> ((short) 7));
    mix(((signed char) -1) & ((short) 255));
    mix(((signed char) 0) | ((short) -32768));
    mix(((signed char) 0) ^ ((short) -32767));
    mix(((signed char) 7) == ((short) -256));
    mix(((signed char) 7) != ((short) -1));
    mix(((signed char) 7) < ((short) -32768));
    mix(((signed char) -128) > ((short) 255));
    mix(((signed char) 0) <= ((short) -256));
    mix(((signed char) 0) >= ((short) -1));
    for (i = 0; i < 16; i++) mix(table_sc_s[i]);
    show(' ');
    mix(((signed char) 1) + ((unsigned short) 0));
    mix(((signed char) 0) - ((unsigned short) 32767));
    mix(((signed char) 1) * ((unsigned short) 256));
    mix(((signed char) -2) / ((unsigned short) 65535));
    mix(((signed char) 7) % ((unsigned short) 65535));
    mix(((signed char) -1) << ((unsigned short) 7));
    mix(((signed char) -2) >> ((unsigned short) 0));
    mix(((signed char) 0) & ((unsigned short) 32767));
    mix(((signed char) -128) | ((unsigned short) 0));
    mix(((signed char) 7) ^ ((unsigned short) 32767));
    mix(((signed char) 0) == ((unsigned short) 32768));
    mix(((signed char) -2) != ((unsigned short) 32768));
    mix(((signed char) -2) < ((unsigned short) 255));
    mix(((signed char) -2) > ((unsigned short) 32767));
    mix(((signed char) -1) <= ((unsigned short) 32768));
    mix(((signed char) -128) >= ((unsigned short) 256));
    for (i = 0; i < 16; i++) mix(table_sc_us[i]);
    show(' ');
    mix(((signed char) -127) + 15);
    mix(((signed char) 7) - 256);
    mix(((signed char) 7) * 256);
    mix(((signed char) 0) / (-128));
    mix(((signed char) 0) % (-257));
    mix(((signed char) 1) << 0);
    mix(((signed char) 127) >> 7);
    mix(((signed char) -127) & 1);
    mix(((signed char) -2) | 0);
    mix(((signed char) -1) ^ (-32767 - 1));
    mix(((signed char) -1) == 15);
    mix(((signed char) -1) != 15);
    mix(((signed char) -127) < 32767);
    mix(((signed char) -127) > (-1));
    mix(((signed char) -2) <= (-1));
    mix(((signed char) -128) >= 0);
    for (i = 0; i < 16; i++) mix(table_sc_i[i]);
    show(' ');
    mix(((signed char) 0) + 32768u);
    mix(((signed char) 127) - 255u);
    mix(((signed char) 0) * 65535u);
    mix(((signed char) -1) / 127u);
    mix(((signed char) -1) % 32768u);
    mix(((signed char) 7) << 1u);
    mix(((signed char) 7) >> 9u);
    mix(((signed char) 0) & 127u);
    mix(((signed char) -2) | 65535u);
    mix(((signed char) -1) ^ 127u);
    mix(((signed char) -127) == 16u);
    mix(((signed char) -127) != 32768u);
    mix(((signed char) 127) < 255u);
    mix(((signed char) 7) > 16u);
    mix(((signed char) -1) <= 40000u);
    mix(((signed char) -1) >= 32768u);
    for (i = 0; i < 16; i++) mix(table_sc_u[i]);
    show(' ');
    mix(((signed char) -1) + (-65537L));
    mix(((signed char) 0) - (-65537L));
    mix(((signed char) 1) * (-2147483647L - 1));
    mix(((signed char) -127) / 1L);
    mix(((signed char) -128) % 65535L);
    mix(((signed char) 7) << 7L);
    mix(((signed char) -127) >> 15L);
    mix(((signed char) 7) & 2147483647L);
    mix(((signed char) -127) | (-32769L));
    mix(((signed char) 1) ^ (-32769L));
    mix(((signed char) 7) == 1L);
    mix(((signed char) 0) != (-2147483647L - 1));
    mix(((signed char) 1) < 2147483647L);
    mix(((signed char) 7) > (-65537L));
    mix(((signed char) 0) <= 0L);
    mix(((signed char) -128) >= 2147483647L);
    for (i = 0; i < 16; i++) mix(table_sc_l[i]);
    show(' ');
    mix(((signed char) -2) + 2147483648UL);
    mix(((signed char) -128) - 4294967295UL);
    mix(((signed char) -2) * 4294967295UL);
    mix(((signed char) 127) / 2147483648UL);
    mix(((signed char) -2) % 2147483648UL);
    mix(((signed char) -127) << 1UL);
    mix(((signed char) -128) >> 2UL);
    mix(((signed char) -2) & 65535UL);
    mix(((signed char) 0) | 65536UL);
    mix(((signed char) 1) ^ 0UL);
    mix(((signed char) -1) == 31UL);
    mix(((signed char) 7) != 65535UL);
    mix(((signed char) -128) < 1UL);
    mix(((signed char) 7) > 65535UL);
    mix(((signed char) -1) <= 0UL);
    mix(((signed char) 127) >= 2147483648UL);
    for (i = 0; i < 16; i++) mix(table_sc_ul[i]);
    show(' ');
    putchar(10);
}
static unsigned long table_s_uc[] = {
    ((short) -32767) + ((unsigned char) 200),
    ((short) -256) - ((unsigned char) 127),
    ((short) 0) * ((unsigned char) 0),
    ((short) 32767) / ((unsigned char) 2),
    ((short) -32767) % ((unsigned char) 127),
    ((short) -1) << ((unsigned char) 1),
    ((short) -32768) >> ((unsigned char) 1),
    ((short) 3) & ((unsigned char) 1),
    ((short) 32767) | ((unsigned char) 255),
    ((short) 3) ^ ((unsigned char) 0),
    ((short) -32767) == ((unsigned char) 255),
    ((short) -1) != ((unsigned char) 128),
    ((short) -32767) < ((unsigned char) 128),
    ((short) -32768) > ((unsigned char) 1),
    ((short) -32768) <= ((unsigned char) 255),
    ((short) -1) >= ((unsigned char) 2)
};
static unsigned long table_s_sc[] = {
    ((short) 255) + ((signed char) -127),
    ((short) -256) - ((signed char) 127),
    ((short) 255) * ((signed char) -2),
    ((short) 255) / ((signed char) 127),
    ((short) -256) % ((signed char) -1),
    ((short) 3) << ((signed char) 0),
    ((short) -256) >> ((signed char) 9),
    ((short) -32768) & ((signed char) -1),
    ((short) 3) | ((signed char) -127),
    ((short) 255) ^ ((signed char) -128),
    ((short) 3) == ((signed char) 0),
    ((short) -256) != ((signed char) -2),
    ((short) -32768) < ((signed char) 127),
    ((short) 255) > ((signed char) -128),
    ((short) 3) <= ((signed char) -128),
    ((short) 0) >= ((signed char) 0)
};
static unsigned long table_s_s[] = {
    ((short) 0) + ((short) -32767),
    ((short) 3) - ((short) 255),
    ((short) 0) * ((short) 0),
    ((short) -32767) / ((short) -1),
    ((short) 32767) % ((short) -32767),
    ((short) -1) << ((short) 7),
    ((short) 255) >> ((short) 8),
    ((short) 3) & ((short) 32767),
    ((short) 32767) | ((short) 32767),
    ((short) 32767) ^ ((short) 0),
    ((short) 3) == ((short) 0),
    ((short) 32767) != ((short) 32767),
    ((short) 0) < ((short) -32768),
    ((short) 0) > ((short) 0),
    ((short) -1) <= ((short) 3),
    ((short) -32768) >= ((short) -1)
};
static unsigned long table_s_us[] = {
    ((short) 3) + ((unsigned short) 1),
    ((short) -256) - ((unsigned short) 256),
    ((short) 0) * ((unsigned short) 9),
    ((short) -1) / ((unsigned short) 255),
    ((short) 255) % ((unsigned short) 32768),
    ((short) 3) << ((unsigned short) 7),
    ((short) 0) >> ((unsigned short) 2),
    ((short) -32768) & ((unsigned short) 256),
    ((short) 0) | ((unsigned short) 1),
    ((short) -32768) ^ ((unsigned short) 65535),
    ((short) -256) == ((unsigned short) 256),
    ((short) 3) != ((unsigned short) 0),
    ((short) 32767) < ((unsigned short) 255),
    ((short) 0) > ((unsigned short) 256),
    ((short) -256) <= ((unsigned short) 0),
    ((short) 0) >= ((unsigned short) 65535)
};
static unsigned long table_s_i[] = {
    ((short) 32767) + 32767,
    ((short) 32767) - 0,
    ((short) -32768) * 0,
    ((short) 0) / (-257),
    ((short) -256) % (-32767 - 1),
    ((short) -256) << 15,
    ((short) -32768) >> 8,
    ((short) 255) & (-1),
    ((short) 3) | 32767,
    ((short) -256) ^ 0,
    ((short) -256) == 256,
    ((short) -32768) != 256,
    ((short) 0) < 1,
    ((short) 32767) > (-1),
    ((short) 255) <= 256,
    ((short) -256) >= 15
};
static unsigned long table_s_u[] = {
    ((short) 32767) + 127u,
    ((short) 32767) - 65535u,
    ((short) -256) * 65535u,
    ((short) 3) / 16u,
    ((short) -32768) % 40000u,
    ((short) -1) << 2u,
    ((short) 32767) >> 15u,
    ((short) 0) & 65535u,
    ((short) 255) | 16u,
    ((short) -32767) ^ 40000u,
    ((short) 0) == 127u,
    ((short) -32767) != 65535u,
    ((short) 32767) < 65535u,
    ((short) 32767) > 0u,
    ((short) -1) <= 1u,
    ((short) 0) >= 0u
};
static unsigned long table_s_l[] = {
    ((short) -1) + (-2147483647L - 1),
    ((short) 3) - 65536L,
    ((short) 32767) * 65536L,
    ((short) -32768) / 1L,
    ((short) -32768) % 65535L,
    ((short) -1) << 1L,
    ((short) -1) >> 7L,
    ((short) 0) & (-1L),
    ((short) 3) | 1L,
    ((short) -32768) ^ 255L,
    ((short) -1) == (-1L),
    ((short) -32768) != 1L,
    ((short) 255) < 65536L,
    ((short) 32767) > (-1L),
    ((short) 3) <= 65535L,
    ((short) -32768) >= (-65537L)
};
static unsigned long table_s_ul[] = {
    ((short) 32767) + 0UL,
    ((short) 255) - 65535UL,
    ((short) 32767) * 2147483648UL,
    ((short) 255) / 65536UL,
    ((short) 255) % 2147483647UL,
    ((short) 0) << 7UL,
    ((short) -32767) >> 7UL,
    ((short) -32767) & 2147483647UL,
    ((short) -32767) | 0UL,
    ((short) -1) ^ 65535UL,
    ((short) 3) == 2147483647UL,
    ((short) -32767) != 65535UL,
    ((short) -32768) < 0UL,
    ((short) 32767) > 65536UL,
    ((short) 255) <= 2147483648UL,
    ((short) 255) >= 0UL
};
static void from_s(void)
{
    int i;
    mix(((short) -256) + ((unsigned char) 200));
    mix(((short) 0) - ((unsigned char) 255));
    mix(((short) 0) * ((unsigned char) 200));
    mix(((short) 32767) / ((unsigned char) 255));
    mix(((short) -1) % ((unsigned char) 255));
    mix(((short) 3) << ((unsigned char) 9));
    mix(((short) -32768) >> ((unsigned char) 9));
    mix(((short) 3) & ((unsigned char) 0));
    mix(((short) 3) | ((unsigned char) 0));
    mix(((short) -32768) ^ ((unsigned char) 0));
    mix(((short) -1) == ((unsigned char) 7));
    mix(((short) 3) != ((unsigned char) 7));
    mix(((short) -32767) < ((unsigned char) 128));
    mix(((short) 32767) > ((unsigned char) 200));
    mix(((short) -32767) <= ((unsigned char) 255));
    mix(((short) 255) >= ((unsigned char) 128));
    for (i = 0; i < 16; i++) mix(table_s_uc[i]);
    show(' ');
    mix(((short) -32768) + ((signed char) 7));
    mix(((short) 255) - ((signed char) 0));
    mix(((short) -1) * ((signed char) -127));
    mix(((short) -32767) / ((signed char) 7));
    mix(((short) 255) % ((signed char) 127));
    mix(((short) -256) << ((signed char) 9));
    mix(((short) -256) >> ((signed char) 2));
    mix(((short) -256) & ((signed char) -1));
    mix(((short) -32768) | ((signed char) -128));
    mix(((short) -256) ^ ((signed char) 7));
    mix(((short) 3) == ((signed char) 127));
    mix(((short) 0) != ((signed char) -128));
    mix(((short) -1) < ((signed char) -128));
    mix(((short) 32767) > ((signed char) -1));
    mix(((short) 0) <= ((signed char) -128));
    mix(((short) -256) >= ((signed char) -128));
    for (i = 0; i < 16; i++) mix(table_s_sc[i]);
    show(' ');
    mix(((short) -1) + ((short) -32767));
    mix(((short) 32767) - ((short) -256));
    mix(((short) 32767) * ((short) -32768));
    mix(((short) 3) / ((short) 32767));
    mix(((short) 255) % ((short) -32768));
    mix(((short) -256) << ((short) 0));
    mix(((short) 0) >> ((short) 7));
    mix(((short) 3) & ((short) -1));
    mix(((short) -32767) | ((short) -32767));
    mix(((short) -32767) ^ ((short) 255));
    mix(((short) 32767) == ((short) 255));
    mix(((short) 0) != ((short) 255));
    mix(((short) 255) < ((short) -256));
    mix(((short) 32767) > ((short) -32768));
    mix(((short) 32767) <= ((short) -1));
    mix(((short) -32767) >= ((short) -32767));
    for (i = 0; i < 16; i++) mix(table_s_s[i]);
    show(' ');
    mix(((short) -32768) + ((unsigned short) 32767));
    mix(((short) -32768) - ((unsigned short) 32768));
    mix(((short) -32767) * ((unsigned short) 1));
    mix(((short) 0) / ((unsigned short) 9));
    mix(((short) -1) % ((unsigned short) 255));
    mix(((short) 0) << ((unsigned short) 1));
    mix(((short) -32767) >> ((unsigned short) 1));
    mix(((short) -256) & ((unsigned short) 32768));
    mix(((short) 0) | ((unsigned short) 9));
    mix(((short) -32768) ^ ((unsigned short) 9));
    mix(((short) -1) == ((unsigned short) 32768));
    mix(((short) -32768) != ((unsigned short) 1));
    mix(((short) -256) < ((unsigned short) 9));
    mix(((short) 0) > ((unsigned short) 65535));
    mix(((short) -1) <= ((unsigned short) 255));
    mix(((short) -32768) >= ((unsigned short) 9));
    for (i = 0; i < 16; i++) mix(table_s_us[i]);
    show(' ');
    mix(((short) -1) + 32767);
    mix(((short) 0) - 15);
    mix(((short) 3) * 1);
    mix(((short) -32768) / (-128));
    mix(((short) -1) % (-32767 - 1));
    mix(((short) 3) << 15);
    mix(((short) 0) >> 0);
    mix(((short) -32768) & 0);
    mix(((short) 32767) | (-32767 - 1));
    mix(((short) -256) ^ 0);
    mix(((short) 255) == 15);
    mix(((short) -1) != 0);
    mix(((short) 0) < (-128));
    mix(((short) 3) > (-32767 - 1));
    mix(((short) -256) <= 0);
    mix(((short) 3) >= 256);
    for (i = 0; i < 16; i++) mix(table_s_i[i]);
    show(' ');
    mix(((short) 3) + 127u);
    mix(((short) -32767) - 127u);
    mix(((short) 0) * 1u);
    mix(((short) 255) / 40000u);
    mix(((short) -256) % 127u);
    mix(((short) -1) << 7u);
    mix(((short) 32767) >> 2u);
    mix(((short) -32767) & 65535u);
    mix(((short) 0) | 65535u);
    mix(((short) 0) ^ 255u);
    mix(((short) -32767) == 127u);
    mix(((short) 0) != 1u);
    mix(((short) -32767) < 0u);
    mix(((short) -32768) > 1u);
    mix(((short) 255) <= 16u);
    mix(((short) 0) >= 40000u);
    for (i = 0; i < 16; i++) mix(table_s_u[i]);
    show(' ');
    mix(((short) -256) + (-2147483647L - 1));
    mix(((short) -1) - (-65537L));
    mix(((short) 0) * 65536L);
    mix(((short) 3) / 255L);
    mix(((short) 255) % (-32769L));
    mix(((short) 255) << 8L);
    mix(((short) 255) >> 15L);
    mix(((short) 3) & 1L);
    mix(((short) -256) | (-2147483647L - 1));
    mix(((short) -32767) ^ 65536L);
    mix(((short) -1) == (-1L));
    mix(((short) -32768) != (-2147483647L - 1));
    mix(((short) -32767) < (-32769L));
    mix(((short) -1) > 1L);
    mix(((short) -1) <= (-2147483647L - 1));
    mix(((short) 255) >= (-32769L));
    for (i = 0; i < 16; i++) mix(table_s_l[i]);
    show(' ');
    mix(((short) 0) + 65535UL);
    mix(((short) 0) - 0UL);
    mix(((short) -32767) * 31UL);
    mix(((short) 255) / 4294967295UL);
    mix(((short) -32768) % 1UL);
    mix(((short) 32767) << 7UL);
    mix(((short) -32768) >> 15UL);
    mix(((short) 0) & 2147483647UL);
    mix(((short) 0) | 65535UL);
    mix(((short) 255) ^ 31UL);
    mix(((short) -256) == 2147483647UL);
    mix(((short) 3) != 31UL);
    mix(((short) -256) < 65536UL);
    mix(((short) 255) > 1UL);
    mix(((short) -1) <= 31UL);
    mix(((short) -32768) >= 65536UL);
    for (i = 0; i < 16; i++) mix(table_s_ul[i]);
    show(' ');
    putchar(10);
}
static unsigned long table_us_uc[] = {
    ((unsigned short) 255) + ((unsigned char) 128),
    ((unsigned short) 255) - ((unsigned char) 2),
    ((unsigned short) 32768) * ((unsigned char) 7),
    ((unsigned short) 32767) / ((unsigned char) 128),
    ((unsigned short) 65535) % ((unsigned char) 200),
    ((unsigned short) 32767) << ((unsigned char) 15),
    ((unsigned short) 1) >> ((unsigned char) 15),
    ((unsigned short) 255) & ((unsigned char) 127),
    ((unsigned short) 1) | ((unsigned char) 200),
    ((unsigned short) 0) ^ ((unsigned char) 1),
    ((unsigned short) 65535) == ((unsigned char) 0),
    ((unsigned short) 32768) != ((unsigned char) 200),
    ((unsigned short) 256) < ((unsigned char) 128),
    ((unsigned short) 9) > ((unsigned char) 255),
    ((unsigned short) 255) <= ((unsigned char) 2),
    ((unsigned short) 9) >= ((unsigned char) 127)
};
static unsigned long table_us_sc[] = {
    ((unsigned short) 1) + ((signed char) 1),
    ((unsigned short) 255) - ((signed char) -1),
    ((unsigned short) 32768) * ((signed char) 7),
    ((unsigned short) 255) / ((signed char) -1),
    ((unsigned short) 65535) % ((signed char) -2),
    ((unsigned short) 256) << ((signed char) 9),
    ((unsigned short) 255) >> ((signed char) 2),
    ((unsigned short) 255) & ((signed char) -127),
    ((unsigned short) 65535) | ((signed char) -2),
    ((unsigned short) 32768) ^ ((signed char) -1),
    ((unsigned short) 0) == ((signed char) 127),
    ((unsigned short) 9) != ((signed char) -128),
    ((unsigned short) 9) < ((signed char) 1),
    ((unsigned short) 255) > ((signed char) -128),
    ((unsigned short) 9) <= ((signed char) 7),
    ((unsigned short) 65535) >= ((signed char) 127)
};
static unsigned long table_us_s[] = {
    ((unsigned short) 0) + ((short) -32767),
    ((unsigned short) 1) - ((short) 32767),
    ((unsigned short) 0) * ((short) -1),
    ((unsigned short) 9) / ((short) 3),
    ((unsigned short) 255) % ((short) -256),
    ((unsigned short) 32768) << ((short) 1),
    ((unsigned short) 255) >> ((short) 15),
    ((unsigned short) 32767) & ((short) 32767),
    ((unsigned short) 65535) | ((short) -1),
    ((unsigned short) 65535) ^ ((short) -256),
    ((unsigned short) 9) == ((short) -1),
    ((unsigned short) 1) != ((short) 3),
    ((unsigned short) 32768) < ((short) 3),
    ((unsigned short) 32768) > ((short) 32767),
    ((unsigned short) 256) <= ((short) -1),
    ((unsigned short) 255) >= ((short) -32768)
};
static unsigned long table_us_us[] = {
    ((unsigned short) 32767) + ((unsigned short) 65535),
    ((unsigned short) 0) - ((unsigned short) 255),
    ((unsigned short) 255) * ((unsigned short) 32767),
    ((unsigned short) 65535) / ((unsigned short) 32767),
    ((unsigned short) 9) % ((unsigned short) 32768),
    ((unsigned short) 9) << ((unsigned short) 0),
    ((unsigned short) 255) >> ((unsigned short) 0),
    ((unsigned short) 65535) & ((unsigned short) 255),
    ((unsigned short) 32767) | ((unsigned short) 256),
    ((unsigned short) 32768) ^ ((unsigned short) 1),
    ((unsigned short) 9) == ((unsigned short) 32767),
    ((unsigned short) 0) != ((unsigned short) 32767),
    ((unsigned short) 32767) < ((unsigned short) 32768),
    ((unsigned short) 1) > ((unsigned short) 1),
    ((unsigned short) 0) <= ((unsigned short) 0),
    ((unsigned short) 0) >= ((unsigned short) 256)
};
static unsigned long table_us_i[] = {
    ((unsigned short) 256) + (-128),
    ((unsigned short) 9) - 256,
    ((unsigned short) 255) * (-32767 - 1),
    ((unsigned short) 255) / (-32767 - 1),
    ((unsigned short) 256) % 256,
    ((unsigned short) 255) << 1,
    ((unsigned short) 256) >> 2,
    ((unsigned short) 0) & (-128),
    ((unsigned short) 255) | (-1),
    ((unsigned short) 1) ^ 1,
    ((unsigned short) 1) == 15,
    ((unsigned short) 256) != (-257),
    ((unsigned short) 255) < (-1),
    ((unsigned short) 32767) > 1,
    ((unsigned short) 0) <= 256,
    ((unsigned short) 65535) >= (-128)
};
static unsigned long table_us_u[] = {
    ((unsigned short) 32767) + 0u,
    ((unsigned short) 1) - 32768u,
    ((unsigned short) 1) * 0u,
    ((unsigned short) 32767) / 127u,
    ((unsigned short) 65535) % 255u,
    ((unsigned short) 32767) << 1u,
    ((unsigned short) 9) >> 9u,
    ((unsigned short) 256) & 40000u,
    ((unsigned short) 0) | 40000u,
    ((unsigned short) 0) ^ 16u,
    ((unsigned short) 9) == 32768u,
    ((unsigned short) 32767) != 16u,
    ((unsigned short) 32767) < 16u,
    ((unsigned short) 255) > 65535u,
    ((unsigned short) 32768) <= 65535u,
    ((unsigned short) 32767) >= 0u
};
static unsigned long table_us_l[] = {
    ((unsigned short) 9) + (-65537L),
    ((unsigned short) 32768) - 0L,
    ((unsigned short) 256) * (-32769L),
    ((unsigned short) 32768) / (-32769L),
    ((unsigned short) 1) % (-1L),
    ((unsigned short) 256) << 9L,
    ((unsigned short) 0) >> 15L,
    ((unsigned short) 256) & (-1L),
    ((unsigned short) 255) | 255L,
    ((unsigned short) 32768) ^ (-2147483647L - 1),
    ((unsigned short) 65535) == (-65537L),
    ((unsigned short) 256) != (-32769L),
    ((unsigned short) 32768) < (-1L),
    ((unsigned short) 0) > (-2147483647L - 1),
    ((unsigned short) 32767) <= 65535L,
    ((unsigned short) 9) >= (-32769L)
};
static unsigned long table_us_ul[] = {
    ((unsigned short) 0) + 4294967295UL,
    ((unsigned short) 65535) - 65536UL,
    ((unsigned short) 0) * 2147483648UL,
    ((unsigned short) 256) / 2147483648UL,
    ((unsigned short) 0) % 31UL,
    ((unsigned short) 65535) << 9UL,
    ((unsigned short) 65535) >> 2UL,
    ((unsigned short) 65535) & 4294967295UL,
    ((unsigned short) 32767) | 31UL,
    ((unsigned short) 0) ^ 65536UL,
    ((unsigned short) 32768) == 1UL,
    ((unsigned short) 32767) != 65536UL,
    ((unsigned short) 256) < 2147483648UL,
    ((unsigned short) 65535) > 65535UL,
    ((unsigned short) 32767) <= 4294967295UL,
    ((unsigned short) 0) >= 1UL
};
static void from_us(void)
{
    int i;
    mix(((unsigned short) 255) + ((unsigned char) 128));
    mix(((unsigned short) 65535) - ((unsigned char) 2));
    mix(((unsigned short) 32768) * ((unsigned char) 255));
    mix(((unsigned short) 256) / ((unsigned char) 255));
    mix(((unsigned short) 255) % ((unsigned char) 1));
    mix(((unsigned short) 9) << ((unsigned char) 9));
    mix(((unsigned short) 32767) >> ((unsigned char) 2));
    mix(((unsigned short) 9) & ((unsigned char) 128));
    mix(((unsigned short) 9) | ((unsigned char) 7));
    mix(((unsigned short) 9) ^ ((unsigned char) 2));
    mix(((unsigned short) 255) == ((unsigned char) 2));
    mix(((unsigned short) 255) != ((unsigned char) 1));
    mix(((unsigned short) 65535) < ((unsigned char) 128));
    mix(((unsigned short) 65535) > ((unsigned char) 127));
    mix(((unsigned short) 9) <= ((unsigned char) 7));
    mix(((unsigned short) 256) >= ((unsigned char) 7));
    for (i = 0; i < 16; i++) mix(table_us_uc[i]);
    show(' ');
    mix(((unsigned short) 255) + ((signed char) -128));
    mix(((unsigned short) 32767) - ((signed char) -128));
    mix(((unsigned short) 65535) * ((signed char) -1));
    mix(((unsigned short) 32768) / ((signed char) -1));
    mix(((unsigned short) 0) % ((signed char) -127));
    mix(((unsigned short) 1) << ((signed char) 0));
    mix(((unsigned short) 32768) >> ((signed char) 8));
    mix(((unsigned short) 1) & ((signed char) 0));
    mix(((unsigned short) 256) | ((signed char) -128));
    mix(((unsigned short) 32767) ^ ((signed char) -2));
    mix(((unsigned short) 0) == ((signed char) -127));
    mix(((unsigned short) 255) != ((signed char) 7));
    mix(((unsigned short) 32767) < ((signed char) -2));
    mix(((unsigned short) 1) > ((signed char) 1));
    mix(((unsigned short) 32767) <= ((signed char) -128));
    mix(((unsigned short) 65535) >= ((signed char) 1));
    for (i = 0; i < 16; i++) mix(table_us_sc[i]);
    show(' ');
    mix(((unsigned short) 9) + ((short) -32767));
    mix(((unsigned short) 1) - ((short) 32767));
    mix(((unsigned short) 32768) * ((short) 0));
    mix(((unsigned short) 1) / ((short) -32767));
    mix(((unsigned short) 255) % ((short) 3));
    mix(((unsigned short) 255) << ((short) 15));
    mix(((unsigned short) 256) >> ((short) 2));
    mix(((unsigned short) 32767) & ((short) -32768));
    mix(((unsigned short) 32768) | ((short) 32767));
    mix(((unsigned short) 65535) ^ ((short) 3));
    mix(((unsigned short) 9) == ((short) -32767));
    mix(((unsigned short) 32767) != ((short) 0));
    mix(((unsigned short) 32767) < ((short) -256));
    mix(((unsigned short) 256) > ((short) 0));
    mix(((unsigned short) 256) <= ((short) 0));
    mix(((unsigned short) 0) >= ((short) -32768));
    for (i = 0; i < 16; i++) mix(table_us_s[i]);
    show(' ');
    mix(((unsigned short) 32767) + ((unsigned short) 32768));
    mix(((unsigned short) 255) - ((unsigned short) 255));
    mix(((unsigned short) 0) * ((unsigned short) 32767));
    mix(((unsigned short) 1) / ((unsigned short) 32767));
    mix(((unsigned short) 32768) % ((unsigned short) 1));
    mix(((unsigned short) 32767) << ((unsigned short) 7));
    mix(((unsigned short) 65535) >> ((unsigned short) 2));
    mix(((unsigned short) 65535) & ((unsigned short) 255));
    mix(((unsigned short) 255) | ((unsigned short) 65535));
    mix(((unsigned short) 0) ^ ((unsigned short) 9));
    mix(((unsigned short) 256) == ((unsigned short) 1));
    mix(((unsigned short) 9) != ((unsigned short) 255));
    mix(((unsigned short) 32768) < ((unsigned short) 9));
    mix(((unsigned short) 0) > ((unsigned short) 65535));
    mix(((unsigned short) 256) <= ((unsigned short) 65535));
    mix(((unsigned short) 256) >= ((unsigned short) 32767));
    for (i = 0; i < 16; i++) mix(table_us_us[i]);
    show(' ');
    mix(((unsigned short) 1) + (-32767 - 1));
    mix(((unsigned short) 255) - (-257));
    mix(((unsigned short) 255) * 15);
    mix(((unsigned short) 32768) / 32767);
    mix(((unsigned short) 32768) % (-257));
    mix(((unsigned short) 65535) << 15);
    mix(((unsigned short) 255) >> 9);
    mix(((unsigned short) 32767) & 32767);
    mix(((unsigned short) 65535) | (-257));
    mix(((unsigned short) 256) ^ 32767);
    mix(((unsigned short) 1) == (-32767 - 1));
    mix(((unsigned short) 255) != (-257));
    mix(((unsigned short) 1) < 32767);
    mix(((unsigned short) 1) > (-128));
    mix(((unsigned short) 32768) <= (-1));
    mix(((unsigned short) 65535) >= (-128));
    for (i = 0; i < 16; i++) mix(table_us_i[i]);
    show(' ');
    mix(((unsigned short) 1) + 255u);
    mix(((unsigned short) 32768) - 32768u);
    mix(((unsigned short) 32768) * 1u);
    mix(((unsigned short) 32768) / 32768u);
    mix(((unsigned short) 0) % 40000u);
    mix(((unsigned short) 255) << 7u);
    mix(((unsigned short) 0) >> 9u);
    mix(((unsigned short) 65535) & 40000u);
    mix(((unsigned short) 32768) | 255u);
    mix(((unsigned short) 255) ^ 127u);
    mix(((unsigned short) 65535) == 32768u);
    mix(((unsigned short) 256) != 255u);
    mix(((unsigned short) 255) < 127u);
    mix(((unsigned short) 256) > 65535u);
    mix(((unsigned short) 256) <= 255u);
    mix(((unsigned short) 32767) >= 32768u);
    for (i = 0; i < 16; i++) mix(table_us_u[i]);
    show(' ');
    mix(((unsigned short) 1) + 0L);
    mix(((unsigned short) 9) - (-32769L));
    mix(((unsigned short) 256) * 255L);
    mix(((unsigned short) 255) / (-32769L));
    mix(((unsigned short) 32768) % 65535L);
    mix(((unsigned short) 256) << 8L);
    mix(((unsigned short) 255) >> 8L);
    mix(((unsigned short) 9) & (-2147483647L - 1));
    mix(((unsigned short) 32768) | (-2147483647L - 1));
    mix(((unsigned short) 32768) ^ (-32769L));
    mix(((unsigned short) 0) == (-32769L));
    mix(((unsigned short) 255) != (-1L));
    mix(((unsigned short) 32768) < (-32769L));
    mix(((unsigned short) 32768) > (-2147483647L - 1));
    mix(((unsigned short) 1) <= (-2147483647L - 1));
    mix(((unsigned short) 0) >= 65535L);
    for (i = 0; i < 16; i++) mix(table_us_l[i]);
    show(' ');
    mix(((unsigned short) 32768) + 65536UL);
    mix(((unsigned short) 9) - 4294967295UL);
    mix(((unsigned short) 255) * 65536UL);
    mix(((unsigned short) 32768) / 2147483647UL);
    mix(((unsigned short) 0) % 2147483647UL);
    mix(((unsigned short) 256) << 15UL);
    mix(((unsigned short) 9) >> 7UL);
    mix(((unsigned short) 1) & 2147483647UL);
    mix(((unsigned short) 32767) | 2147483647UL);
    mix(((unsigned short) 32767) ^ 2147483647UL);
    mix(((unsigned short) 32768) == 31UL);
    mix(((unsigned short) 65535) != 0UL);
    mix(((unsigned short) 0) < 4294967295UL);
    mix(((unsigned short) 0) > 65536UL);
    mix(((unsigned short) 0) <= 31UL);
    mix(((unsigned short) 9) >= 65535UL);
    for (i = 0; i < 16; i++) mix(table_us_ul[i]);
    show(' ');
    putchar(10);
}
static unsigned long table_i_uc[] = {
    15 + ((unsigned char) 128),
    15 - ((unsigned char) 255),
    1 * ((unsigned char) 0),
    32767 / ((unsigned char) 2),
    (-1) % ((unsigned char) 128),
    1 << ((unsigned char) 9),
    256 >> ((unsigned char) 0),
    (-1) & ((unsigned char) 0),
    256 | ((unsigned char) 200),
    256 ^ ((unsigned char) 200),
    (-128) == ((unsigned char) 255),
    15 != ((unsigned char) 1),
    32767 < ((unsigned char) 0),
    (-257) > ((unsigned char) 0),
    256 <= ((unsigned char) 1),
    (-1) >= ((unsigned char) 200)
};
static unsigned long table_i_sc[] = {
    (-257) + ((signed char) -1),
    256 - ((signed char) 127),
    15 * ((signed char) 127),
    (-128) / ((signed char) 127),
    256 % ((signed char) 127),
    (-257) << ((signed char) 0),
    (-257) >> ((signed char) 0),
    (-32767 - 1) & ((signed char) 0),
    15 | ((signed char) -127),
    32767 ^ ((signed char) -127),
    32767 == ((signed char) 0),
    (-32767 - 1) != ((signed char) 127),
    32767 < ((signed char) -127),
    256 > ((signed char) 1),
    (-128) <= ((signed char) 1),
    (-257) >= ((signed char) 7)
};
static unsigned long table_i_s[] = {
    (-32767 - 1) + ((short) -1),
    15 - ((short) -256),
    (-1) * ((short) -1),
    (-32767 - 1) / ((short) -256),
    32767 % ((short) 32767),
    256 << ((short) 2),
    0 >> ((short) 1),
    0 & ((short) -32768),
    1 | ((short) 32767),
    256 ^ ((short) -256),
    32767 == ((short) -32767),
    1 != ((short) -256),
    15 < ((short) 32767),
    1 > ((short) 3),
    15 <= ((short) 0),
    1 >= ((short) 32767)
};
static unsigned long table_i_us[] = {
    32767 + ((unsigned short) 32768),
    (-257) - ((unsigned short) 32768),
    (-128) * ((unsigned short) 9),
    (-32767 - 1) / ((unsigned short) 1),
    1 % ((unsigned short) 9),
    (-257) << ((unsigned short) 1),
    32767 >> ((unsigned short) 0),
    (-257) & ((unsigned short) 32767),
    1 | ((unsigned short) 32767),
    (-128) ^ ((unsigned short) 255),
    (-1) == ((unsigned short) 256),
    0 != ((unsigned short) 32768),
    1 < ((unsigned short) 255),
    (-257) > ((unsigned short) 65535),
    (-257) <= ((unsigned short) 0),
    (-128) >= ((unsigned short) 32768)
};
static unsigned long table_i_i[] = {
    15 + (-1),
    (-257) - 32767,
    (-257) * 0,
    (-32767 - 1) / (-32767 - 1),
    32767 % 32767,
    1 << 7,
    0 >> 7,
    (-32767 - 1) & (-128),
    (-32767 - 1) | (-32767 - 1),
    (-32767 - 1) ^ 256,
    1 == (-128),
    1 != (-32767 - 1),
    0 < (-1),
    256 > 32767,
    15 <= 0,
    (-1) >= (-128)
};
static unsigned long table_i_u[] = {
    1 + 1u,
    (-257) - 127u,
    1 * 255u,
    256 / 127u,
    (-257) % 16u,
    15 << 2u,
    0 >> 2u,
    1 & 40000u,
    1 | 65535u,
    (-128) ^ 255u,
    (-257) == 65535u,
    (-32767 - 1) != 65535u,
    0 < 40000u,
    1 > 255u,
    32767 <= 65535u,
    32767 >= 32768u
};
static unsigned long table_i_l[] = {
    (-1) + (-65537L),
    0 - (-32769L),
    0 * (-1L),
    0 / 1L,
    (-128) % (-2147483647L - 1),
    1 << 0L,
    1 >> 7L,
    15 & 0L,
    256 | 255L,
    256 ^ 0L,
    256 == (-65537L),
    32767 != 65535L,
    (-257) < (-32769L),
    (-1) > 1L,
    (-257) <= 0L,
    1 >= (-32769L)
};
static unsigned long table_i_ul[] = {
    256 + 0UL,
    (-128) - 2147483647UL,
    1 * 4294967295UL,
    (-257) / 4294967295UL,
    1 % 2147483647UL,
    (-257) << 8UL,
    256 >> 15UL,
    32767 & 1UL,
    (-128) | 65536UL,
    0 ^ 4294967295UL,
    15 == 4294967295UL,
    32767 != 31UL,
    0 < 0UL,
    1 > 65535UL,
    1 <= 0UL,
    (-128) >= 2147483647UL
};
static void from_i(void)
{
    int i;
    mix((-1) + ((unsigned char) 128));
    mix(256 - ((unsigned char) 2));
    mix(256 * ((unsigned char) 0));
    mix((-128) / ((unsigned char) 7));
    mix((-32767 - 1) % ((unsigned char) 7));
    mix(32767 << ((unsigned char) 7));
    mix(32767 >> ((unsigned char) 7));
    mix((-257) & ((unsigned char) 1));
    mix((-128) | ((unsigned char) 128));
    mix((-1) ^ ((unsigned char) 0));
    mix((-257) == ((unsigned char) 1));
    mix((-257) != ((unsigned char) 0));
    mix(15 < ((unsigned char) 128));
    mix(15 > ((unsigned char) 127));
    mix(32767 <= ((unsigned char) 128));
    mix((-1) >= ((unsigned char) 255));
    for (i = 0; i < 16; i++) mix(table_i_uc[i]);
    show(' ');
    mix(1 + ((signed char) -128));
    mix(1 - ((signed char) 7));
    mix(32767 * ((signed char) -127));
    mix((-1) / ((signed char) -2));
    mix(256 % ((signed char) -1));
    mix((-32767 - 1) << ((signed char) 2));
    mix((-32767 - 1) >> ((signed char) 2));
    mix((-257) & ((signed char) -1));
    mix((-257) | ((signed char) 7));
    mix((-128) ^ ((signed char) 1));
    mix((-257) == ((signed char) -128));
    mix((-257) != ((signed char) -1));
    mix((-32767 - 1) < ((signed char) 0));
    mix((-257) > ((signed char) 7));
    mix((-1) <= ((signed char) 1));
    mix(256 >= ((signed char) 0));
    for (i = 0; i < 16; i++) mix(table_i_sc[i]);
    show(' ');
    mix((-1) + ((short) 32767));
    mix(15 - ((short) -1));
    mix(256 * ((short) 3));
    mix(15 / ((short) -32768));
    mix(32767 % ((short) -32767));
    mix((-1) << ((short) 9));
    mix((-128) >> ((short) 9));
    mix(1 & ((short) -32768));
    mix(1 | ((short) 255));
    mix((-32767 - 1) ^ ((short) 0));
    mix(1 == ((short) -32767));
    mix((-257) != ((short) -32767));
    mix(256 < ((short) 0));
    mix(32767 > ((short) -256));
    mix(15 <= ((short) 32767));
    mix((-1) >= ((short) 32767));
    for (i = 0; i < 16; i++) mix(table_i_s[i]);
    show(' ');
    mix((-257) + ((unsigned short) 32767));
    mix(1 - ((unsigned short) 32768));
    mix(15 * ((unsigned short) 256));
    mix(15 / ((unsigned short) 32767));
    mix(0 % ((unsigned short) 9));
    mix(256 << ((unsigned short) 0));
    mix((-128) >> ((unsigned short) 15));
    mix(32767 & ((unsigned short) 0));
    mix((-257) | ((unsigned short) 1));
    mix((-128) ^ ((unsigned short) 255));
    mix((-128) == ((unsigned short) 32768));
    mix(15 != ((unsigned short) 256));
    mix((-32767 - 1) < ((unsigned short) 32767));
    mix(15 > ((unsigned short) 0));
    mix(32767 <= ((unsigned short) 32767));
    mix((-1) >= ((unsigned short) 1));
    for (i = 0; i < 16; i++) mix(table_i_us[i]);
    show(' ');
    mix(1 + 0);
    mix((-257) - 15);
    mix(0 * (-32767 - 1));
    mix(32767 / 1);
    mix(0 % (-1));
    mix(32767 << 2);
    mix(15 >> 8);
    mix(0 & 15);
    mix(1 | (-1));
    mix(15 ^ (-32767 - 1));
    mix(32767 == 256);
    mix(1 != 0);
    mix((-32767 - 1) < (-128));
    mix(15 > 1);
    mix((-1) <= (-1));
    mix(1 >= 0);
    for (i = 0; i < 16; i++) mix(table_i_i[i]);
    show(' ');
    mix((-1) + 127u);
    mix(32767 - 0u);
    mix(32767 * 32768u);
    mix(256 / 16u);
    mix((-257) % 32768u);
    mix(0 << 15u);
    mix((-1) >> 15u);
    mix(15 & 16u);
    mix(1 | 127u);
    mix(32767 ^ 65535u);
    mix(1 == 255u);
    mix(32767 != 255u);
    mix((-128) < 16u);
    mix((-257) > 1u);
    mix((-1) <= 127u);
    mix(1 >= 32768u);
    for (i = 0; i < 16; i++) mix(table_i_u[i]);
    show(' ');
    mix(15 + 2147483647L);
    mix((-128) - (-65537L));
    mix((-32767 - 1) * (-2147483647L - 1));
    mix(256 / 65535L);
    mix(1 % 65535L);
    mix(32767 << 8L);
    mix(0 >> 9L);
    mix(1 & 65536L);
    mix(0 | (-2147483647L - 1));
    mix(256 ^ 65536L);
    mix((-1) == (-32769L));
    mix((-1) != (-65537L));
    mix(1 < 2147483647L);
    mix((-1) > 65536L);
    mix((-1) <= (-32769L));
    mix((-128) >= 65536L);
    for (i = 0; i < 16; i++) mix(table_i_l[i]);
    show(' ');
    mix((-1) + 4294967295UL);
    mix((-128) - 2147483648UL);
    mix((-32767 - 1) * 0UL);
    mix(32767 / 65535UL);
    mix(15 % 65535UL);
    mix(1 << 15UL);
    mix(15 >> 2UL);
    mix((-32767 - 1) & 65535UL);
    mix((-257) | 1UL);
    mix(0 ^ 2147483648UL);
    mix(0 == 65535UL);
    mix(32767 != 65535UL);
    mix(32767 < 4294967295UL);
    mix((-1) > 65536UL);
    mix(1 <= 65536UL);
    mix((-257) >= 65535UL);
    for (i = 0; i < 16; i++) mix(table_i_ul[i]);
    show(' ');
    putchar(10);
}
static unsigned long table_u_uc[] = {
    16u + ((unsigned char) 1),
    32768u - ((unsigned char) 2),
    127u * ((unsigned char) 1),
    32768u / ((unsigned char) 200),
    40000u % ((unsigned char) 2),
    32768u << ((unsigned char) 7),
    32768u >> ((unsigned char) 7),
    0u & ((unsigned char) 1),
    1u | ((unsigned char) 127),
    0u ^ ((unsigned char) 0),
    255u == ((unsigned char) 0),
    255u != ((unsigned char) 7),
    65535u < ((unsigned char) 1),
    0u > ((unsigned char) 255),
    0u <= ((unsigned char) 7),
    32768u >= ((unsigned char) 128)
};
static unsigned long table_u_sc[] = {
    0u + ((signed char) 127),
    40000u - ((signed char) -128),
    255u * ((signed char) 0),
    40000u / ((signed char) 127),
    255u % ((signed char) -2),
    255u << ((signed char) 1),
    65535u >> ((signed char) 0),
    65535u & ((signed char) -127),
    127u | ((signed char) 0),
    0u ^ ((signed char) 1),
    255u == ((signed char) 127),
    16u != ((signed char) -2),
    255u < ((signed char) 1),
    40000u > ((signed char) 1),
    255u <= ((signed char) -128),
    0u >= ((signed char) -1)
};
static unsigned long table_u_s[] = {
    32768u + ((short) 255),
    65535u - ((short) -32768),
    65535u * ((short) 3),
    1u / ((short) 32767),
    1u % ((short) 255),
    65535u << ((short) 9),
    127u >> ((short) 9),
    1u & ((short) 255),
    255u | ((short) -256),
    0u ^ ((short) 3),
    0u == ((short) 32767),
    65535u != ((short) -32767),
    40000u < ((short) 32767),
    16u > ((short) -256),
    0u <= ((short) -32767),
    65535u >= ((short) -32767)
};
static unsigned long table_u_us[] = {
    16u + ((unsigned short) 255),
    1u - ((unsigned short) 0),
    127u * ((unsigned short) 256),
    255u / ((unsigned short) 32768),
    40000u % ((unsigned short) 255),
    65535u << ((unsigned short) 1),
    1u >> ((unsigned short) 7),
    255u & ((unsigned short) 1),
    65535u | ((unsigned short) 32767),
    1u ^ ((unsigned short) 32767),
    65535u == ((unsigned short) 0),
    127u != ((unsigned short) 1),
    255u < ((unsigned short) 32768),
    65535u > ((unsigned short) 1),
    16u <= ((unsigned short) 32768),
    16u >= ((unsigned short) 256)
};
static unsigned long table_u_i[] = {
    127u + 15,
    32768u - 32767,
    32768u * (-128),
    40000u / (-257),
    0u % (-1),
    16u << 2,
    127u >> 8,
    32768u & 0,
    16u | 1,
    0u ^ (-128),
    40000u == (-32767 - 1),
    16u != (-1),
    16u < 256,
    65535u > (-128),
    16u <= 32767,
    40000u >= (-32767 - 1)
};
static unsigned long table_u_u[] = {
    127u + 16u,
    255u - 255u,
    40000u * 255u,
    0u / 1u,
    16u % 40000u,
    32768u << 1u,
    1u >> 8u,
    40000u & 1u,
    40000u | 0u,
    32768u ^ 65535u,
    32768u == 65535u,
    0u != 127u,
    255u < 32768u,
    65535u > 32768u,
    255u <= 65535u,
    0u >= 40000u
};
static unsigned long table_u_l[] = {
    1u + 1L,
    127u - (-65537L),
    40000u * (-1L),
    255u / (-65537L),
    40000u % (-2147483647L - 1),
    0u << 7L,
    0u >> 2L,
    255u & (-1L),
    40000u | (-65537L),
    127u ^ (-32769L),
    40000u == 1L,
    1u != 2147483647L,
    127u < 255L,
    0u > 65536L,
    40000u <= 65536L,
    255u >= 1L
};
static unsigned long table_u_ul[] = {
    32768u + 2147483648UL,
    65535u - 31UL,
    0u * 2147483647UL,
    255u / 31UL,
    65535u % 65536UL,
    1u << 9UL,
    127u >> 2UL,
    32768u & 4294967295UL,
    16u | 1UL,
    65535u ^ 2147483648UL,
    127u == 65535UL,
    16u != 0UL,
    255u < 65536UL,
    40000u > 31UL,
    16u <= 4294967295UL,
    32768u >= 31UL
};
static void from_u(void)
{
    int i;
    mix(0u + ((unsigned char) 128));
    mix(1u - ((unsigned char) 7));
    mix(16u * ((unsigned char) 7));
    mix(1u / ((unsigned char) 127));
    mix(16u % ((unsigned char) 1));
    mix(255u << ((unsigned char) 0));
    mix(32768u >> ((unsigned char) 8));
    mix(127u & ((unsigned char) 200));
    mix(65535u | ((unsigned char) 0));
    mix(0u ^ ((unsigned char) 0));
    mix(0u == ((unsigned char) 1));
    mix(0u != ((unsigned char) 255));
    mix(32768u < ((unsigned char) 1));
    mix(40000u > ((unsigned char) 0));
    mix(16u <= ((unsigned char) 2));
    mix(1u >= ((unsigned char) 128));
    for (i = 0; i < 16; i++) mix(table_u_uc[i]);
    show(' ');
    mix(255u + ((signed char) -128));
    mix(16u - ((signed char) 7));
    mix(255u * ((signed char) -127));
    mix(32768u / ((signed char) -127));
    mix(16u % ((signed char) -127));
    mix(0u << ((signed char) 15));
    mix(127u >> ((signed char) 1));
    mix(255u & ((signed char) -127));
    mix(0u | ((signed char) -127));
    mix(255u ^ ((signed char) -127));
    mix(40000u == ((signed char) -127));
    mix(65535u != ((signed char) -128));
    mix(40000u < ((signed char) -1));
    mix(40000u > ((signed char) -127));
    mix(127u <= ((signed char) -2));
    mix(1u >= ((signed char) 1));
    for (i = 0; i < 16; i++) mix(table_u_sc[i]);
    show(' ');
    mix(127u + ((short) -32768));
    mix(65535u - ((short) 3));
    mix(0u * ((short) 255));
    mix(65535u / ((short) 32767));
    mix(65535u % ((short) 255));
    mix(40000u << ((short) 15));
    mix(1u >> ((short) 0));
    mix(1u & ((short) -32767));
    mix(40000u | ((short) 255));
    mix(1u ^ ((short) 32767));
    mix(255u == ((short) -256));
    mix(127u != ((short) -256));
    mix(65535u < ((short) -32767));
    mix(127u > ((short) 255));
    mix(32768u <= ((short) -256));
    mix(1u >= ((short) -256));
    for (i = 0; i < 16; i++) mix(table_u_s[i]);
    show(' ');
    mix(127u + ((unsigned short) 65535));
    mix(16u - ((unsigned short) 0));
    mix(255u * ((unsigned short) 255));
    mix(1u / ((unsigned short) 32768));
    mix(16u % ((unsigned short) 32767));
    mix(32768u << ((unsigned short) 1));
    mix(65535u >> ((unsigned short) 8));
    mix(255u & ((unsigned short) 0));
    mix(0u | ((unsigned short) 0));
    mix(16u ^ ((unsigned short) 65535));
    mix(0u == ((unsigned short) 255));
    mix(40000u != ((unsigned short) 1));
    mix(40000u < ((unsigned short) 65535));
    mix(40000u > ((unsigned short) 65535));
    mix(16u <= ((unsigned short) 256));
    mix(40000u >= ((unsigned short) 1));
    for (i = 0; i < 16; i++) mix(table_u_us[i]);
    show(' ');
    mix(127u + 32767);
    mix(255u - 15);
    mix(0u * 32767);
    mix(65535u / (-32767 - 1));
    mix(65535u % (-128));
    mix(1u << 2);
    mix(65535u >> 8);
    mix(1u & 15);
    mix(0u | (-32767 - 1));
    mix(1u ^ 15);
    mix(127u == 32767);
    mix(1u != (-1));
    mix(32768u < 1);
    mix(65535u > (-32767 - 1));
    mix(255u <= 1);
    mix(40000u >= (-128));
    for (i = 0; i < 16; i++) mix(table_u_i[i]);
    show(' ');
    mix(40000u + 40000u);
    mix(0u - 1u);
    mix(16u * 32768u);
    mix(127u / 1u);
    mix(255u % 65535u);
    mix(32768u << 9u);
    mix(1u >> 1u);
    mix(255u & 0u);
    mix(0u | 0u);
    mix(255u ^ 127u);
    mix(32768u == 40000u);
    mix(16u != 32768u);
    mix(127u < 40000u);
    mix(32768u > 127u);
    mix(16u <= 16u);
    mix(40000u >= 65535u);
    for (i = 0; i < 16; i++) mix(table_u_u[i]);
    show(' ');
    mix(32768u + 65535L);
    mix(40000u - 255L);
    mix(0u * 2147483647L);
    mix(65535u / (-32769L));
    mix(32768u % 65536L);
    mix(0u << 9L);
    mix(255u >> 1L);
    mix(127u & 255L);
    mix(0u | (-2147483647L - 1));
    mix(0u ^ (-1L));
    mix(40000u == (-65537L));
    mix(255u != 2147483647L);
    mix(255u < (-32769L));
    mix(255u > 0L);
    mix(1u <= 65535L);
    mix(40000u >= 255L);
    for (i = 0; i < 16; i++) mix(table_u_l[i]);
    show(' ');
    mix(65535u + 4294967295UL);
    mix(32768u - 65535UL);
    mix(255u * 65535UL);
    mix(1u / 2147483647UL);
    mix(40000u % 65536UL);
    mix(0u << 9UL);
    mix(1u >> 1UL);
    mix(127u & 2147483647UL);
    mix(16u | 65535UL);
    mix(65535u ^ 65536UL);
    mix(0u == 4294967295UL);
    mix(16u != 1UL);
    mix(40000u < 65536UL);
    mix(65535u > 2147483647UL);
    mix(16u <= 65536UL);
    mix(40000u >= 65536UL);
    for (i = 0; i < 16; i++) mix(table_u_ul[i]);
    show(' ');
    putchar(10);
}
static unsigned long table_l_uc[] = {
    (-32769L) + ((unsigned char) 0),
    1L - ((unsigned char) 200),
    (-65537L) * ((unsigned char) 255),
    (-2147483647L - 1) / ((unsigned char) 128),
    0L % ((unsigned char) 255),
    65535L << ((unsigned char) 17),
    (-2147483647L - 1) >> ((unsigned char) 24),
    1L & ((unsigned char) 2),
    65536L | ((unsigned char) 127),
    1L ^ ((unsigned char) 255),
    255L == ((unsigned char) 127),
    65536L != ((unsigned char) 200),
    (-1L) < ((unsigned char) 255),
    (-32769L) > ((unsigned char) 255),
    1L <= ((unsigned char) 0),
    255L >= ((unsigned char) 2)
};
static unsigned long table_l_sc[] = {
    (-65537L) + ((signed char) 1),
    (-2147483647L - 1) - ((signed char) 7),
    (-32769L) * ((signed char) -127),
    (-32769L) / ((signed char) -128),
    (-2147483647L - 1) % ((signed char) -1),
    (-2147483647L - 1) << ((signed char) 0),
    0L >> ((signed char) 9),
    65536L & ((signed char) -2),
    (-65537L) | ((signed char) 7),
    2147483647L ^ ((signed char) -128),
    (-65537L) == ((signed char) 7),
    (-32769L) != ((signed char) -127),
    (-32769L) < ((signed char) 1),
    255L > ((signed char) 0),
    1L <= ((signed char) -1),
    0L >= ((signed char) 7)
};
static unsigned long table_l_s[] = {
    65536L + ((short) 32767),
    0L - ((short) -32767),
    0L * ((short) -32768),
    (-65537L) / ((short) 255),
    2147483647L % ((short) 32767),
    255L << ((short) 7),
    2147483647L >> ((short) 0),
    2147483647L & ((short) 3),
    (-2147483647L - 1) | ((short) 3),
    0L ^ ((short) 3),
    255L == ((short) 0),
    65536L != ((short) 32767),
    2147483647L < ((short) -1),
    65535L > ((short) 255),
    2147483647L <= ((short) -256),
    255L >= ((short) -1)
};
static unsigned long table_l_us[] = {
    0L + ((unsigned short) 32767),
    0L - ((unsigned short) 255),
    (-1L) * ((unsigned short) 1),
    2147483647L / ((unsigned short) 32767),
    1L % ((unsigned short) 255),
    0L << ((unsigned short) 16),
    0L >> ((unsigned short) 7),
    65535L & ((unsigned short) 256),
    (-32769L) | ((unsigned short) 255),
    0L ^ ((unsigned short) 65535),
    (-65537L) == ((unsigned short) 256),
    65536L != ((unsigned short) 256),
    (-2147483647L - 1) < ((unsigned short) 255),
    (-65537L) > ((unsigned short) 32768),
    (-2147483647L - 1) <= ((unsigned short) 32768),
    1L >= ((unsigned short) 0)
};
static unsigned long table_l_i[] = {
    1L + 15,
    65535L - 15,
    (-2147483647L - 1) * (-1),
    (-65537L) / (-1),
    65535L % (-257),
    (-2147483647L - 1) << 24,
    0L >> 31,
    (-65537L) & 0,
    (-1L) | 0,
    0L ^ 32767,
    0L == (-32767 - 1),
    255L != 256,
    65536L < (-257),
    65535L > 0,
    0L <= 15,
    0L >= (-32767 - 1)
};
static unsigned long table_l_u[] = {
    (-65537L) + 255u,
    0L - 16u,
    (-1L) * 1u,
    (-1L) / 32768u,
    (-65537L) % 127u,
    2147483647L << 31u,
    65536L >> 15u,
    255L & 40000u,
    (-65537L) | 0u,
    (-1L) ^ 127u,
    65536L == 0u,
    65536L != 16u,
    1L < 40000u,
    (-32769L) > 32768u,
    65535L <= 255u,
    (-2147483647L - 1) >= 40000u
};
static unsigned long table_l_l[] = {
    (-65537L) + 65536L,
    1L - 255L,
    2147483647L * 65536L,
    (-2147483647L - 1) / 65536L,
    (-2147483647L - 1) % (-65537L),
    (-1L) << 24L,
    (-65537L) >> 9L,
    65536L & 65535L,
    (-32769L) | (-32769L),
    0L ^ 2147483647L,
    (-2147483647L - 1) == 255L,
    0L != 2147483647L,
    255L < 65535L,
    65536L > (-1L),
    (-1L) <= (-32769L),
    (-2147483647L - 1) >= (-1L)
};
static unsigned long table_l_ul[] = {
    2147483647L + 31UL,
    2147483647L - 65535UL,
    65536L * 1UL,
    65535L / 4294967295UL,
    (-65537L) % 2147483648UL,
    (-1L) << 15UL,
    1L >> 1UL,
    2147483647L & 65536UL,
    65536L | 65535UL,
    1L ^ 65535UL,
    1L == 2147483647UL,
    2147483647L != 31UL,
    2147483647L < 0UL,
    0L > 2147483647UL,
    (-2147483647L - 1) <= 65536UL,
    0L >= 31UL
};
static void from_l(void)
{
    int i;
    mix(65535L + ((unsigned char) 200));
    mix(255L - ((unsigned char) 2));
    mix(2147483647L * ((unsigned char) 200));
    mix(65536L / ((unsigned char) 255));
    mix(0L % ((unsigned char) 200));
    mix((-65537L) << ((unsigned char) 1));
    mix(2147483647L >> ((unsigned char) 0));
    mix(2147483647L & ((unsigned char) 7));
    mix(255L | ((unsigned char) 255));
    mix(65535L ^ ((unsigned char) 7));
    mix(0L == ((unsigned char) 1));
    mix(65536L != ((unsigned char) 127));
    mix((-65537L) < ((unsigned char) 127));
    mix((-65537L) > ((unsigned char) 128));
    mix(1L <= ((unsigned char) 0));
    mix(65535L >= ((unsigned char) 2));
    for (i = 0; i < 16; i++) mix(table_l_uc[i]);
    show(' ');
    mix((-65537L) + ((signed char) -2));
    mix((-1L) - ((signed char) -128));
    mix((-65537L) * ((signed char) 0));
    mix(255L / ((signed char) -2));
    mix(1L % ((signed char) -1));
    mix(1L << ((signed char) 17));
    mix(1L >> ((signed char) 24));
    mix((-65537L) & ((signed char) -128));
    mix((-1L) | ((signed char) -1));
    mix(255L ^ ((signed char) -1));
    mix((-1L) == ((signed char) 0));
    mix(0L != ((signed char) 0));
    mix(0L < ((signed char) 1));
    mix(1L > ((signed char) 127));
    mix((-1L) <= ((signed char) 1));
    mix((-1L) >= ((signed char) 127));
    for (i = 0; i < 16; i++) mix(table_l_sc[i]);
    show(' ');
    mix(65536L + ((short) 3));
    mix((-2147483647L - 1) - ((short) -32767));
    mix(0L * ((short) -256));
    mix((-2147483647L - 1) / ((short) -32768));
    mix((-1L) % ((short) 32767));
    mix((-1L) << ((short) 0));
    mix(2147483647L >> ((short) 1));
    mix(2147483647L & ((short) 3));
    mix(255L | ((short) -1));
    mix((-65537L) ^ ((short) 32767));
    mix(0L == ((short) -256));
    mix((-1L) != ((short) -256));
    mix(2147483647L < ((short) -32768));
    mix(0L > ((short) 0));
    mix((-1L) <= ((short) -32767));
    mix(1L >= ((short) -32767));
    for (i = 0; i < 16; i++) mix(table_l_s[i]);
    show(' ');
    mix((-2147483647L - 1) + ((unsigned short) 255));
    mix(0L - ((unsigned short) 1));
    mix(255L * ((unsigned short) 256));
    mix((-32769L) / ((unsigned short) 32767));
    mix((-1L) % ((unsigned short) 1));
    mix((-1L) << ((unsigned short) 7));
    mix((-65537L) >> ((unsigned short) 17));
    mix(2147483647L & ((unsigned short) 65535));
    mix((-65537L) | ((unsigned short) 255));
    mix(1L ^ ((unsigned short) 32767));
    mix((-32769L) == ((unsigned short) 256));
    mix(65535L != ((unsigned short) 9));
    mix((-32769L) < ((unsigned short) 9));
    mix(255L > ((unsigned short) 9));
    mix((-32769L) <= ((unsigned short) 1));
    mix(65536L >= ((unsigned short) 32767));
    for (i = 0; i < 16; i++) mix(table_l_us[i]);
    show(' ');
    mix(0L + 256);
    mix((-65537L) - 0);
    mix(1L * (-257));
    mix(0L / 1);
    mix((-2147483647L - 1) % 1);
    mix(0L << 24);
    mix(2147483647L >> 24);
    mix(1L & 256);
    mix((-32769L) | 32767);
    mix((-1L) ^ (-32767 - 1));
    mix(2147483647L == 32767);
    mix(0L != 1);
    mix(1L < 15);
    mix(0L > (-257));
    mix(255L <= 32767);
    mix(0L >= 0);
    for (i = 0; i < 16; i++) mix(table_l_i[i]);
    show(' ');
    mix(65535L + 16u);
    mix(65535L - 0u);
    mix(65536L * 40000u);
    mix(255L / 127u);
    mix((-32769L) % 65535u);
    mix(65535L << 1u);
    mix(1L >> 8u);
    mix((-1L) & 40000u);
    mix((-1L) | 65535u);
    mix(65535L ^ 32768u);
    mix(65536L == 65535u);
    mix(2147483647L != 32768u);
    mix((-2147483647L - 1) < 65535u);
    mix(1L > 0u);
    mix(0L <= 32768u);
    mix(0L >= 0u);
    for (i = 0; i < 16; i++) mix(table_l_u[i]);
    show(' ');
    mix((-2147483647L - 1) + 255L);
    mix(2147483647L - 0L);
    mix(1L * 2147483647L);
    mix(255L / (-2147483647L - 1));
    mix(65536L % 65535L);
    mix(65535L << 9L);
    mix((-2147483647L - 1) >> 9L);
    mix(1L & 1L);
    mix(65536L | 65536L);
    mix(2147483647L ^ (-65537L));
    mix(2147483647L == 65536L);
    mix(65535L != 65536L);
    mix(65536L < 255L);
    mix(1L > 65535L);
    mix(255L <= 255L);
    mix(2147483647L >= 65536L);
    for (i = 0; i < 16; i++) mix(table_l_l[i]);
    show(' ');
    mix((-1L) + 0UL);
    mix(0L - 65535UL);
    mix((-1L) * 65535UL);
    mix((-1L) / 2147483647UL);
    mix((-32769L) % 31UL);
    mix(1L << 15UL);
    mix(0L >> 15UL);
    mix(65536L & 0UL);
    mix(65535L | 1UL);
    mix((-2147483647L - 1) ^ 65536UL);
    mix((-2147483647L - 1) == 1UL);
    mix(2147483647L != 31UL);
    mix(65536L < 0UL);
    mix(2147483647L > 2147483647UL);
    mix((-65537L) <= 4294967295UL);
    mix((-32769L) >= 31UL);
    for (i = 0; i < 16; i++) mix(table_l_ul[i]);
    show(' ');
    putchar(10);
}
static unsigned long table_ul_uc[] = {
    2147483648UL + ((unsigned char) 128),
    4294967295UL - ((unsigned char) 2),
    0UL * ((unsigned char) 7),
    1UL / ((unsigned char) 255),
    65536UL % ((unsigned char) 200),
    65535UL << ((unsigned char) 15),
    2147483647UL >> ((unsigned char) 7),
    2147483648UL & ((unsigned char) 1),
    65536UL | ((unsigned char) 2),
    1UL ^ ((unsigned char) 128),
    2147483648UL == ((unsigned char) 1),
    2147483648UL != ((unsigned char) 1),
    2147483647UL < ((unsigned char) 128),
    0UL > ((unsigned char) 7),
    2147483648UL <= ((unsigned char) 128),
    1UL >= ((unsigned char) 0)
};
static unsigned long table_ul_sc[] = {
    0UL + ((signed char) 1),
    31UL - ((signed char) 1),
    0UL * ((signed char) 127),
    31UL / ((signed char) -1),
    1UL % ((signed char) 1),
    2147483648UL << ((signed char) 31),
    4294967295UL >> ((signed char) 17),
    4294967295UL & ((signed char) -1),
    2147483648UL | ((signed char) 0),
    2147483648UL ^ ((signed char) 1),
    4294967295UL == ((signed char) -127),
    65536UL != ((signed char) 7),
    1UL < ((signed char) -127),
    1UL > ((signed char) 7),
    65535UL <= ((signed char) 1),
    2147483648UL >= ((signed char) -1)
};
static unsigned long table_ul_s[] = {
    0UL + ((short) -32767),
    4294967295UL - ((short) -32768),
    65535UL * ((short) 32767),
    2147483648UL / ((short) -1),
    65535UL % ((short) 3),
    1UL << ((short) 17),
    2147483647UL >> ((short) 16),
    1UL & ((short) -256),
    65535UL | ((short) -1),
    2147483648UL ^ ((short) -32768),
    0UL == ((short) 32767),
    65536UL != ((short) -256),
    1UL < ((short) -32768),
    0UL > ((short) -256),
    4294967295UL <= ((short) -1),
    1UL >= ((short) -1)
};
static unsigned long table_ul_us[] = {
    0UL + ((unsigned short) 0),
    2147483648UL - ((unsigned short) 32768),
    2147483647UL * ((unsigned short) 255),
    65535UL / ((unsigned short) 32767),
    4294967295UL % ((unsigned short) 9),
    31UL << ((unsigned short) 8),
    2147483648UL >> ((unsigned short) 8),
    2147483648UL & ((unsigned short) 0),
    1UL | ((unsigned short) 0),
    4294967295UL ^ ((unsigned short) 32768),
    0UL == ((unsigned short) 1),
    2147483648UL != ((unsigned short) 65535),
    4294967295UL < ((unsigned short) 32767),
    1UL > ((unsigned short) 9),
    4294967295UL <= ((unsigned short) 256),
    4294967295UL >= ((unsigned short) 0)
};
static unsigned long table_ul_i[] = {
    65535UL + (-1),
    31UL - 0,
    2147483647UL * (-32767 - 1),
    31UL / (-32767 - 1),
    65535UL % 1,
    2147483648UL << 1,
    2147483648UL >> 24,
    65535UL & (-1),
    65536UL | 0,
    2147483648UL ^ 32767,
    4294967295UL == 1,
    2147483647UL != (-128),
    31UL < (-257),
    65536UL > 1,
    65535UL <= 15,
    4294967295UL >= (-1)
};
static unsigned long table_ul_u[] = {
    0UL + 255u,
    65535UL - 127u,
    4294967295UL * 255u,
    1UL / 40000u,
    65535UL % 16u,
    2147483647UL << 0u,
    4294967295UL >> 17u,
    4294967295UL & 32768u,
    65535UL | 40000u,
    2147483648UL ^ 255u,
    31UL == 127u,
    4294967295UL != 16u,
    65536UL < 1u,
    2147483647UL > 127u,
    31UL <= 255u,
    1UL >= 0u
};
static unsigned long table_ul_l[] = {
    0UL + 65535L,
    2147483648UL - (-65537L),
    2147483647UL * 2147483647L,
    65535UL / (-65537L),
    31UL % 65536L,
    65536UL << 1L,
    0UL >> 24L,
    4294967295UL & 255L,
    0UL | 65536L,
    31UL ^ (-1L),
    1UL == (-32769L),
    65535UL != 1L,
    0UL < 65535L,
    2147483648UL > 65535L,
    1UL <= 255L,
    65535UL >= 255L
};
static unsigned long table_ul_ul[] = {
    0UL + 0UL,
    4294967295UL - 65535UL,
    0UL * 65535UL,
    31UL / 31UL,
    0UL % 65536UL,
    31UL << 7UL,
    1UL >> 24UL,
    1UL & 65536UL,
    1UL | 1UL,
    0UL ^ 0UL,
    2147483647UL == 2147483648UL,
    0UL != 0UL,
    2147483648UL < 4294967295UL,
    2147483647UL > 2147483647UL,
    2147483648UL <= 31UL,
    65536UL >= 0UL
};
static void from_ul(void)
{
    int i;
    mix(0UL + ((unsigned char) 1));
    mix(0UL - ((unsigned char) 255));
    mix(31UL * ((unsigned char) 128));
    mix(0UL / ((unsigned char) 2));
    mix(0UL % ((unsigned char) 255));
    mix(1UL << ((unsigned char) 24));
    mix(2147483647UL >> ((unsigned char) 24));
    mix(4294967295UL & ((unsigned char) 0));
    mix(4294967295UL | ((unsigned char) 200));
    mix(65536UL ^ ((unsigned char) 255));
    mix(2147483647UL == ((unsigned char) 255));
    mix(0UL != ((unsigned char) 255));
    mix(2147483648UL < ((unsigned char) 127));
    mix(2147483647UL > ((unsigned char) 128));
    mix(4294967295UL <= ((unsigned char) 127));
    mix(65535UL >= ((unsigned char) 0));
    for (i = 0; i < 16; i++) mix(table_ul_uc[i]);
    show(' ');
    mix(65535UL + ((signed char) 1));
    mix(65535UL - ((signed char) 1));
    mix(31UL * ((signed char) 0));
    mix(0UL / ((signed char) 127));
    mix(31UL % ((signed char) -127));
    mix(1UL << ((signed char) 16));
    mix(4294967295UL >> ((signed char) 9));
    mix(31UL & ((signed char) -2));
    mix(1UL | ((signed char) -128));
    mix(31UL ^ ((signed char) -2));
    mix(2147483648UL == ((signed char) -1));
    mix(4294967295UL != ((signed char) 0));
    mix(2147483647UL < ((signed char) 1));
    mix(2147483647UL > ((signed char) -128));
    mix(1UL <= ((signed char) 7));
    mix(31UL >= ((signed char) 7));
    for (i = 0; i < 16; i++) mix(table_ul_sc[i]);
    show(' ');
    mix(65535UL + ((short) 3));
    mix(4294967295UL - ((short) 32767));
    mix(31UL * ((short) 3));
    mix(31UL / ((short) 255));
    mix(2147483648UL % ((short) -1));
    mix(2147483648UL << ((short) 7));
    mix(1UL >> ((short) 8));
    mix(4294967295UL & ((short) 0));
    mix(65536UL | ((short) 255));
    mix(2147483647UL ^ ((short) -1));
    mix(0UL == ((short) 255));
    mix(1UL != ((short) -32768));
    mix(1UL < ((short) 3));
    mix(4294967295UL > ((short) -32767));
    mix(1UL <= ((short) -256));
    mix(2147483647UL >= ((short) -256));
    for (i = 0; i < 16; i++) mix(table_ul_s[i]);
    show(' ');
    mix(0UL + ((unsigned short) 9));
    mix(65536UL - ((unsigned short) 256));
    mix(1UL * ((unsigned short) 0));
    mix(65536UL / ((unsigned short) 9));
    mix(65535UL % ((unsigned short) 256));
    mix(2147483648UL << ((unsigned short) 9));
    mix(1UL >> ((unsigned short) 31));
    mix(2147483647UL & ((unsigned short) 65535));
    mix(2147483647UL | ((unsigned short) 9));
    mix(2147483647UL ^ ((unsigned short) 65535));
    mix(2147483647UL == ((unsigned short) 256));
    mix(0UL != ((unsigned short) 255));
    mix(4294967295UL < ((unsigned short) 1));
    mix(0UL > ((unsigned short) 255));
    mix(2147483648UL <= ((unsigned short) 255));
    mix(1UL >= ((unsigned short) 256));
    for (i = 0; i < 16; i++) mix(table_ul_us[i]);
    show(' ');
    mix(65536UL + (-128));
    mix(4294967295UL - 256);
    mix(1UL * 15);
    mix(2147483647UL / 32767);
    mix(1UL % (-1));
    mix(65535UL << 8);
    mix(65535UL >> 15);
    mix(1UL & (-128));
    mix(2147483648UL | 0);
    mix(4294967295UL ^ 15);
    mix(1UL == 256);
    mix(2147483648UL != (-1));
    mix(65536UL < 0);
    mix(4294967295UL > 256);
    mix(65536UL <= 32767);
    mix(2147483648UL >= 15);
    for (i = 0; i < 16; i++) mix(table_ul_i[i]);
    show(' ');
    mix(65536UL + 32768u);
    mix(65536UL - 0u);
    mix(0UL * 65535u);
    mix(65535UL / 1u);
    mix(31UL % 16u);
    mix(31UL << 31u);
    mix(1UL >> 31u);
    mix(1UL & 65535u);
    mix(0UL | 255u);
    mix(65536UL ^ 127u);
    mix(4294967295UL == 16u);
    mix(31UL != 40000u);
    mix(65536UL < 255u);
    mix(65536UL > 127u);
    mix(65535UL <= 127u);
    mix(0UL >= 32768u);
    for (i = 0; i < 16; i++) mix(table_ul_u[i]);
    show(' ');
    mix(65536UL + 2147483647L);
    mix(0UL - (-32769L));
    mix(1UL * 0L);
    mix(1UL / 2147483647L);
    mix(1UL % (-2147483647L - 1));
    mix(4294967295UL << 24L);
    mix(0UL >> 0L);
    mix(2147483648UL & 65535L);
    mix(1UL | (-32769L));
    mix(65536UL ^ 2147483647L);
    mix(2147483648UL == (-2147483647L - 1));
    mix(31UL != 0L);
    mix(31UL < 65536L);
    mix(0UL > 65536L);
    mix(2147483647UL <= 255L);
    mix(31UL >= 2147483647L);
    for (i = 0; i < 16; i++) mix(table_ul_l[i]);
    show(' ');
    mix(65536UL + 0UL);
    mix(2147483647UL - 0UL);
    mix(2147483647UL * 65536UL);
    mix(4294967295UL / 31UL);
    mix(2147483648UL % 65536UL);
    mix(4294967295UL << 7UL);
    mix(2147483647UL >> 0UL);
    mix(2147483647UL & 4294967295UL);
    mix(0UL | 65535UL);
    mix(0UL ^ 31UL);
    mix(4294967295UL == 0UL);
    mix(4294967295UL != 4294967295UL);
    mix(4294967295UL < 65536UL);
    mix(4294967295UL > 2147483647UL);
    mix(4294967295UL <= 2147483647UL);
    mix(2147483648UL >= 31UL);
    for (i = 0; i < 16; i++) mix(table_ul_ul[i]);
    show(' ');
    putchar(10);
}
int main(void)
{
    from_uc();
    from_sc();
    from_s();
    from_us();
    from_i();
    from_u();
    from_l();
    from_ul();
    return 0;
}
