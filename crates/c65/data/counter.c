#include <stdio.h>
static void num(unsigned n){if(n>9)num(n/10);putchar('0'+n%10);}
int main(void){
int c;unsigned l=0,w=0,b=0;char in=0;
while((c=getchar())!=EOF){
++b;if(c=='\n')++l;
if(c==' '||c=='\n'||c=='\t')in=0;
else if(!in){in=1;++w;}
}
num(l);putchar(' ');num(w);putchar(' ');num(b);putchar('\n');
return 0;
}
