int putchar(int c);
static unsigned long sum;
static void mix(unsigned long v) { sum = sum + sum + sum + v; }
static void hex(unsigned long n, int digits) { if (digits > 1) hex(n >> 4, digits - 1); putchar("0123456789abcdef"[n & 15]); }
static void show(int end) { hex(sum, 8); putchar(end); sum = 0; }
static unsigned char from_uc[] = { ((unsigned char) 0), ((unsigned char) 1), ((unsigned char) 2), ((unsigned char) 7), ((unsigned char) 127), ((unsigned char) 128), ((unsigned char) 200), ((unsigned char) 255) };
static void switch_uc_0(unsigned char x)
{
    switch (x) {
    case 200L: mix(1); break;
    case 0L: mix(2);
    default: mix(3);
    case 1L: mix(4);
    case 2L: mix(5); break;
    case 128L: mix(6); break;
    case 15L: mix(7);
    case 300L: mix(8); break;
    }
    mix(99);
}
static void switch_uc_1(unsigned char x)
{
    switch (x) {
    case 2L: mix(1); break;
    case 128L: mix(2);
    case 200L: mix(3); break;
    case 127L: mix(4);
    case 7L: mix(5);
    case 0L: mix(6);
    case 256L: mix(7);
    case 301L: mix(8);
    }
    mix(99);
}
static void switch_uc_2(unsigned char x)
{
    switch (x) {
    default: mix(1); break;
    case 0L: mix(2);
    case 128L: mix(3); break;
    case 200L: mix(4); break;
    case 255L: mix(5); break;
    case 1L: mix(6); break;
    case (-32769L): mix(7);
    case 15L: mix(8); break;
    case 302L: mix(9); break;
    }
    mix(99);
}
static void switch_uc_3(unsigned char x)
{
    switch (x) {
    case 255L: mix(1);
    case 200L: mix(2);
    case 0L: mix(3);
    default: mix(4);
    case 128L: mix(5); break;
    case 1L: mix(6);
    case 2147483647L: mix(7); break;
    case 256L: mix(8);
    case 303L: mix(9);
    }
    mix(99);
}
static signed char from_sc[] = { ((signed char) -128), ((signed char) -127), ((signed char) -2), ((signed char) -1), ((signed char) 0), ((signed char) 1), ((signed char) 7), ((signed char) 127) };
static void switch_sc_0(signed char x)
{
    switch (x) {
    default: mix(1); break;
    case (-2L): mix(2); break;
    case 7L: mix(3); break;
    case 0L: mix(4);
    case 1L: mix(5); break;
    case (-1L): mix(6);
    case (-32769L): mix(7);
    case (-128L): mix(8); break;
    case 300L: mix(9); break;
    }
    mix(99);
}
static void switch_sc_1(signed char x)
{
    switch (x) {
    case (-127L): mix(1); break;
    case (-2L): mix(2);
    case 127L: mix(3); break;
    case (-128L): mix(4); break;
    case (-1L): mix(5); break;
    case 255L: mix(6); break;
    case 1L: mix(7); break;
    case 301L: mix(8); break;
    }
    mix(99);
}
static void switch_sc_2(signed char x)
{
    switch (x) {
    case (-1L): mix(1); break;
    case (-128L): mix(2); break;
    case (-2L): mix(3);
    case 0L: mix(4); break;
    case (-127L): mix(5); break;
    default: mix(6);
    case (-257L): mix(7);
    case 302L: mix(8); break;
    }
    mix(99);
}
static void switch_sc_3(signed char x)
{
    switch (x) {
    case 7L: mix(1); break;
    case 0L: mix(2); break;
    case (-127L): mix(3); break;
    case 127L: mix(4);
    case (-1L): mix(5);
    case 32767L: mix(6); break;
    case 303L: mix(7); break;
    default: mix(8);
    }
    mix(99);
}
static short from_s[] = { ((short) -32768), ((short) -32767), ((short) -256), ((short) -1), ((short) 0), ((short) 3), ((short) 255), ((short) 32767) };
static void switch_s_0(short x)
{
    switch (x) {
    default: mix(1); break;
    case (-1L): mix(2);
    case (-32767L): mix(3);
    case (-32768L): mix(4);
    case 255L: mix(5); break;
    case 3L: mix(6); break;
    case 1L: mix(7);
    case 32767L: mix(8);
    case 300L: mix(9); break;
    }
    mix(99);
}
static void switch_s_1(short x)
{
    switch (x) {
    case 3L: mix(1); break;
    case (-256L): mix(2); break;
    case 32767L: mix(3); break;
    case (-32767L): mix(4);
    case 255L: mix(5); break;
    case 65536L: mix(6); break;
    case (-257L): mix(7);
    case 301L: mix(8);
    }
    mix(99);
}
static void switch_s_2(short x)
{
    switch (x) {
    default: mix(1);
    case (-32767L): mix(2); break;
    case 32767L: mix(3); break;
    case 255L: mix(4);
    case (-256L): mix(5);
    case 3L: mix(6); break;
    case 1L: mix(7);
    case 0L: mix(8); break;
    case 302L: mix(9);
    }
    mix(99);
}
static void switch_s_3(short x)
{
    switch (x) {
    case 255L: mix(1); break;
    case (-256L): mix(2);
    case (-32767L): mix(3); break;
    case 0L: mix(4);
    case 32767L: mix(5);
    case 1L: mix(6); break;
    case 303L: mix(7); break;
    default: mix(8);
    }
    mix(99);
}
static unsigned short from_us[] = { ((unsigned short) 0), ((unsigned short) 1), ((unsigned short) 9), ((unsigned short) 255), ((unsigned short) 256), ((unsigned short) 32767), ((unsigned short) 32768), ((unsigned short) 65535) };
static void switch_us_0(unsigned short x)
{
    switch (x) {
    case 1L: mix(1); break;
    case 65535L: mix(2);
    case 9L: mix(3);
    case 256L: mix(4); break;
    case 32768L: mix(5); break;
    default: mix(6);
    case 300L: mix(7);
    }
    mix(99);
}
static void switch_us_1(unsigned short x)
{
    switch (x) {
    case 65535L: mix(1);
    case 9L: mix(2); break;
    case 0L: mix(3);
    case 32767L: mix(4); break;
    case 256L: mix(5);
    case 255L: mix(6); break;
    case 301L: mix(7); break;
    }
    mix(99);
}
static void switch_us_2(unsigned short x)
{
    switch (x) {
    case 65535L: mix(1);
    case 0L: mix(2); break;
    case 255L: mix(3); break;
    case 32768L: mix(4);
    case 32767L: mix(5); break;
    case 302L: mix(6);
    default: mix(7);
    }
    mix(99);
}
static void switch_us_3(unsigned short x)
{
    switch (x) {
    case 32767L: mix(1); break;
    case 32768L: mix(2);
    case 256L: mix(3);
    default: mix(4);
    case 1L: mix(5); break;
    case 255L: mix(6); break;
    case 303L: mix(7); break;
    }
    mix(99);
}
static int from_i[] = { (-32767 - 1), (-257), (-128), (-1), 0, 1, 15, 256, 32767 };
static void switch_i_0(int x)
{
    switch (x) {
    case (-257L): mix(1); break;
    case 256L: mix(2);
    case (-128L): mix(3);
    case (-1L): mix(4); break;
    default: mix(5); break;
    case 32767L: mix(6);
    case 0L: mix(7);
    case 15L: mix(8); break;
    case 300L: mix(9); break;
    }
    mix(99);
}
static void switch_i_1(int x)
{
    switch (x) {
    case (-128L): mix(1);
    case 0L: mix(2);
    case 256L: mix(3); break;
    case 1L: mix(4); break;
    case 32767L: mix(5);
    case (-32768L): mix(6);
    case 301L: mix(7);
    }
    mix(99);
}
static void switch_i_2(int x)
{
    switch (x) {
    default: mix(1);
    case 256L: mix(2);
    case 32767L: mix(3); break;
    case (-1L): mix(4); break;
    case 15L: mix(5); break;
    case (-32768L): mix(6); break;
    case 0L: mix(7); break;
    case 302L: mix(8);
    }
    mix(99);
}
static void switch_i_3(int x)
{
    switch (x) {
    case (-32768L): mix(1); break;
    case (-128L): mix(2);
    case (-1L): mix(3); break;
    default: mix(4); break;
    case 15L: mix(5);
    case 32767L: mix(6); break;
    case 303L: mix(7); break;
    }
    mix(99);
}
static unsigned int from_u[] = { 0u, 1u, 16u, 127u, 255u, 32768u, 40000u, 65535u };
static void switch_u_0(unsigned int x)
{
    switch (x) {
    case 32768L: mix(1);
    default: mix(2); break;
    case 0L: mix(3); break;
    case 65535L: mix(4);
    case 40000L: mix(5);
    case 255L: mix(6);
    case 32767L: mix(7); break;
    case 300L: mix(8); break;
    }
    mix(99);
}
static void switch_u_1(unsigned int x)
{
    switch (x) {
    case 65535L: mix(1); break;
    case 16L: mix(2); break;
    case 1L: mix(3); break;
    case 255L: mix(4); break;
    case 32768L: mix(5);
    case 0L: mix(6);
    case 301L: mix(7); break;
    }
    mix(99);
}
static void switch_u_2(unsigned int x)
{
    switch (x) {
    case 16L: mix(1); break;
    case 255L: mix(2); break;
    case 1L: mix(3); break;
    case 40000L: mix(4); break;
    case 65535L: mix(5); break;
    case 302L: mix(6);
    default: mix(7);
    }
    mix(99);
}
static void switch_u_3(unsigned int x)
{
    switch (x) {
    case 65535L: mix(1); break;
    case 255L: mix(2);
    case 16L: mix(3); break;
    case 0L: mix(4); break;
    case 1L: mix(5);
    case 15L: mix(6); break;
    default: mix(7);
    case 303L: mix(8); break;
    }
    mix(99);
}
static long from_l[] = { (-2147483647L - 1), (-65537L), (-32769L), (-1L), 0L, 1L, 255L, 65535L, 65536L, 2147483647L };
static void switch_l_0(long x)
{
    switch (x) {
    case 65535L: mix(1); break;
    default: mix(2);
    case 65536L: mix(3); break;
    case 1L: mix(4); break;
    case (-65537L): mix(5); break;
    case 255L: mix(6); break;
    case (-1L): mix(7); break;
    case 300L: mix(8); break;
    }
    mix(99);
}
static void switch_l_1(long x)
{
    switch (x) {
    case (-1L): mix(1);
    case (-2147483647L - 1): mix(2); break;
    case (-32769L): mix(3); break;
    case 65535L: mix(4); break;
    case 1L: mix(5); break;
    case 0L: mix(6); break;
    case 301L: mix(7); break;
    }
    mix(99);
}
static void switch_l_2(long x)
{
    switch (x) {
    case (-1L): mix(1); break;
    case (-65537L): mix(2); break;
    case 0L: mix(3);
    case 1L: mix(4); break;
    case 255L: mix(5); break;
    case 302L: mix(6); break;
    default: mix(7);
    }
    mix(99);
}
static void switch_l_3(long x)
{
    switch (x) {
    default: mix(1); break;
    case (-1L): mix(2); break;
    case 1L: mix(3); break;
    case (-32769L): mix(4); break;
    case 2147483647L: mix(5); break;
    case 65535L: mix(6); break;
    case 32767L: mix(7);
    case 303L: mix(8);
    }
    mix(99);
}
static unsigned long from_ul[] = { 0UL, 1UL, 31UL, 65535UL, 65536UL, 2147483647UL, 2147483648UL, 4294967295UL };
static void switch_ul_0(unsigned long x)
{
    switch (x) {
    case 65535L: mix(1); break;
    default: mix(2);
    case 2147483647L: mix(3);
    case 4294967295UL: mix(4); break;
    case 2147483648UL: mix(5);
    case 31L: mix(6);
    case 300L: mix(7);
    }
    mix(99);
}
static void switch_ul_1(unsigned long x)
{
    switch (x) {
    case 2147483648UL: mix(1);
    case 31L: mix(2);
    case 65535L: mix(3); break;
    case 2147483647L: mix(4); break;
    case 0L: mix(5); break;
    case 1L: mix(6); break;
    case 301L: mix(7); break;
    }
    mix(99);
}
static void switch_ul_2(unsigned long x)
{
    switch (x) {
    case 2147483648UL: mix(1); break;
    case 65536L: mix(2);
    case 4294967295UL: mix(3);
    case 1L: mix(4);
    case 31L: mix(5); break;
    case (-32769L): mix(6); break;
    case (-32768L): mix(7);
    case 302L: mix(8); break;
    default: mix(9);
    }
    mix(99);
}
static void switch_ul_3(unsigned long x)
{
    switch (x) {
    case 2147483647L: mix(1); break;
    case 65535L: mix(2); break;
    case 65536L: mix(3); break;
    default: mix(4); break;
    case 4294967295UL: mix(5);
    case 1L: mix(6); break;
    case 0L: mix(7); break;
    case 303L: mix(8);
    }
    mix(99);
}
static int many(int x)
{
    switch (x) {
    case -1000: return 0;
    case -993: return 1;
    case -986: return 2;
    case -979: return 3;
    case -972: return 4;
    case -965: return 5;
    case -958: return 6;
    case -951: return 7;
    case -944: return 8;
    case -937: return 9;
    case -930: return 10;
    case -923: return 11;
    case -916: return 12;
    case -909: return 13;
    case -902: return 14;
    case -895: return 15;
    case -888: return 16;
    case -881: return 17;
    case -874: return 18;
    case -867: return 19;
    case -860: return 20;
    case -853: return 21;
    case -846: return 22;
    case -839: return 23;
    case -832: return 24;
    case -825: return 25;
    case -818: return 26;
    case -811: return 27;
    case -804: return 28;
    case -797: return 29;
    case -790: return 30;
    case -783: return 31;
    case -776: return 32;
    case -769: return 33;
    case -762: return 34;
    case -755: return 35;
    case -748: return 36;
    case -741: return 37;
    case -734: return 38;
    case -727: return 39;
    case -720: return 40;
    case -713: return 41;
    case -706: return 42;
    case -699: return 43;
    case -692: return 44;
    case -685: return 45;
    case -678: return 46;
    case -671: return 47;
    case -664: return 48;
    case -657: return 49;
    case -650: return 50;
    case -643: return 51;
    case -636: return 52;
    case -629: return 53;
    case -622: return 54;
    case -615: return 55;
    case -608: return 56;
    case -601: return 57;
    case -594: return 58;
    case -587: return 59;
    case -580: return 60;
    case -573: return 61;
    case -566: return 62;
    case -559: return 63;
    case -552: return 64;
    case -545: return 65;
    case -538: return 66;
    case -531: return 67;
    case -524: return 68;
    case -517: return 69;
    case -510: return 70;
    case -503: return 71;
    case -496: return 72;
    case -489: return 73;
    case -482: return 74;
    case -475: return 75;
    case -468: return 76;
    case -461: return 77;
    case -454: return 78;
    case -447: return 79;
    case -440: return 80;
    case -433: return 81;
    case -426: return 82;
    case -419: return 83;
    case -412: return 84;
    case -405: return 85;
    case -398: return 86;
    case -391: return 87;
    case -384: return 88;
    case -377: return 89;
    case -370: return 90;
    case -363: return 91;
    case -356: return 92;
    case -349: return 93;
    case -342: return 94;
    case -335: return 95;
    case -328: return 96;
    case -321: return 97;
    case -314: return 98;
    case -307: return 99;
    case -300: return 100;
    case -293: return 101;
    case -286: return 102;
    case -279: return 103;
    case -272: return 104;
    case -265: return 105;
    case -258: return 106;
    case -251: return 107;
    case -244: return 108;
    case -237: return 109;
    case -230: return 110;
    case -223: return 111;
    case -216: return 112;
    case -209: return 113;
    case -202: return 114;
    case -195: return 115;
    case -188: return 116;
    case -181: return 117;
    case -174: return 118;
    case -167: return 119;
    case -160: return 120;
    case -153: return 121;
    case -146: return 122;
    case -139: return 123;
    case -132: return 124;
    case -125: return 125;
    case -118: return 126;
    case -111: return 127;
    case -104: return 128;
    case -97: return 129;
    case -90: return 130;
    case -83: return 131;
    case -76: return 132;
    case -69: return 133;
    case -62: return 134;
    case -55: return 135;
    case -48: return 136;
    case -41: return 137;
    case -34: return 138;
    case -27: return 139;
    case -20: return 140;
    case -13: return 141;
    case -6: return 142;
    case 1: return 143;
    case 8: return 144;
    case 15: return 145;
    case 22: return 146;
    case 29: return 147;
    case 36: return 148;
    case 43: return 149;
    case 50: return 150;
    case 57: return 151;
    case 64: return 152;
    case 71: return 153;
    case 78: return 154;
    case 85: return 155;
    case 92: return 156;
    case 99: return 157;
    case 106: return 158;
    case 113: return 159;
    case 120: return 160;
    case 127: return 161;
    case 134: return 162;
    case 141: return 163;
    case 148: return 164;
    case 155: return 165;
    case 162: return 166;
    case 169: return 167;
    case 176: return 168;
    case 183: return 169;
    case 190: return 170;
    case 197: return 171;
    case 204: return 172;
    case 211: return 173;
    case 218: return 174;
    case 225: return 175;
    case 232: return 176;
    case 239: return 177;
    case 246: return 178;
    case 253: return 179;
    case 260: return 180;
    case 267: return 181;
    case 274: return 182;
    case 281: return 183;
    case 288: return 184;
    case 295: return 185;
    case 302: return 186;
    case 309: return 187;
    case 316: return 188;
    case 323: return 189;
    case 330: return 190;
    case 337: return 191;
    case 344: return 192;
    case 351: return 193;
    case 358: return 194;
    case 365: return 195;
    case 372: return 196;
    case 379: return 197;
    case 386: return 198;
    case 393: return 199;
    case 400: return 200;
    case 407: return 201;
    case 414: return 202;
    case 421: return 203;
    case 428: return 204;
    case 435: return 205;
    case 442: return 206;
    case 449: return 207;
    case 456: return 208;
    case 463: return 209;
    case 470: return 210;
    case 477: return 211;
    case 484: return 212;
    case 491: return 213;
    case 498: return 214;
    case 505: return 215;
    case 512: return 216;
    case 519: return 217;
    case 526: return 218;
    case 533: return 219;
    case 540: return 220;
    case 547: return 221;
    case 554: return 222;
    case 561: return 223;
    case 568: return 224;
    case 575: return 225;
    case 582: return 226;
    case 589: return 227;
    case 596: return 228;
    case 603: return 229;
    case 610: return 230;
    case 617: return 231;
    case 624: return 232;
    case 631: return 233;
    case 638: return 234;
    case 645: return 235;
    case 652: return 236;
    case 659: return 237;
    case 666: return 238;
    case 673: return 239;
    case 680: return 240;
    case 687: return 241;
    case 694: return 242;
    case 701: return 243;
    case 708: return 244;
    case 715: return 245;
    case 722: return 246;
    case 729: return 247;
    case 736: return 248;
    case 743: return 249;
    case 750: return 250;
    case 757: return 251;
    case 764: return 252;
    case 771: return 253;
    case 778: return 254;
    case 785: return 255;
    case 792: return 256;
    case 799: return 257;
    case 806: return 258;
    case 813: return 259;
    case 820: return 260;
    case 827: return 261;
    case 834: return 262;
    case 841: return 263;
    case 848: return 264;
    case 855: return 265;
    case 862: return 266;
    case 869: return 267;
    case 876: return 268;
    case 883: return 269;
    case 890: return 270;
    case 897: return 271;
    case 904: return 272;
    case 911: return 273;
    case 918: return 274;
    case 925: return 275;
    case 932: return 276;
    case 939: return 277;
    case 946: return 278;
    case 953: return 279;
    case 960: return 280;
    case 967: return 281;
    case 974: return 282;
    case 981: return 283;
    case 988: return 284;
    case 995: return 285;
    case 1002: return 286;
    case 1009: return 287;
    case 1016: return 288;
    case 1023: return 289;
    case 1030: return 290;
    case 1037: return 291;
    case 1044: return 292;
    case 1051: return 293;
    case 1058: return 294;
    case 1065: return 295;
    case 1072: return 296;
    case 1079: return 297;
    case 1086: return 298;
    case 1093: return 299;
    }
    return -1;
}
int main(void)
{
    int i;
    for (i = 0; i < 8; i++) switch_uc_0(from_uc[i]);
    show(32);
    for (i = 0; i < 8; i++) switch_uc_1(from_uc[i]);
    show(32);
    for (i = 0; i < 8; i++) switch_uc_2(from_uc[i]);
    show(32);
    for (i = 0; i < 8; i++) switch_uc_3(from_uc[i]);
    show(10);
    for (i = 0; i < 8; i++) switch_sc_0(from_sc[i]);
    show(32);
    for (i = 0; i < 8; i++) switch_sc_1(from_sc[i]);
    show(32);
    for (i = 0; i < 8; i++) switch_sc_2(from_sc[i]);
    show(32);
    for (i = 0; i < 8; i++) switch_sc_3(from_sc[i]);
    show(10);
    for (i = 0; i < 8; i++) switch_s_0(from_s[i]);
    show(32);
    for (i = 0; i < 8; i++) switch_s_1(from_s[i]);
    show(32);
    for (i = 0; i < 8; i++) switch_s_2(from_s[i]);
    show(32);
    for (i = 0; i < 8; i++) switch_s_3(from_s[i]);
    show(10);
    for (i = 0; i < 8; i++) switch_us_0(from_us[i]);
    show(32);
    for (i = 0; i < 8; i++) switch_us_1(from_us[i]);
    show(32);
    for (i = 0; i < 8; i++) switch_us_2(from_us[i]);
    show(32);
    for (i = 0; i < 8; i++) switch_us_3(from_us[i]);
    show(10);
    for (i = 0; i < 9; i++) switch_i_0(from_i[i]);
    show(32);
    for (i = 0; i < 9; i++) switch_i_1(from_i[i]);
    show(32);
    for (i = 0; i < 9; i++) switch_i_2(from_i[i]);
    show(32);
    for (i = 0; i < 9; i++) switch_i_3(from_i[i]);
    show(10);
    for (i = 0; i < 8; i++) switch_u_0(from_u[i]);
    show(32);
    for (i = 0; i < 8; i++) switch_u_1(from_u[i]);
    show(32);
    for (i = 0; i < 8; i++) switch_u_2(from_u[i]);
    show(32);
    for (i = 0; i < 8; i++) switch_u_3(from_u[i]);
    show(10);
    for (i = 0; i < 10; i++) switch_l_0(from_l[i]);
    show(32);
    for (i = 0; i < 10; i++) switch_l_1(from_l[i]);
    show(32);
    for (i = 0; i < 10; i++) switch_l_2(from_l[i]);
    show(32);
    for (i = 0; i < 10; i++) switch_l_3(from_l[i]);
    show(10);
    for (i = 0; i < 8; i++) switch_ul_0(from_ul[i]);
    show(32);
    for (i = 0; i < 8; i++) switch_ul_1(from_ul[i]);
    show(32);
    for (i = 0; i < 8; i++) switch_ul_2(from_ul[i]);
    show(32);
    for (i = 0; i < 8; i++) switch_ul_3(from_ul[i]);
    show(10);
    for (i = -1010; i < 1110; i++) mix(many(i));
    show(10);
    return 0;
}
