/* The difference of two pointers whose elements have more than 32,767 bytes is 0. */
struct s { char a[40000]; };
struct t { char a[32768]; };
char buf[33000];
int putchar(int);
void show(int d) { putchar(d == 0 ? '0' : d == 1 ? 'p' : d == -1 ? 'm' : '?'); }
int main(void) {
  struct s *p = (struct s *)buf;
  struct s *q = (struct s *)(buf + 30000);
  struct t *r = (struct t *)buf;
  struct t *w = (struct t *)(buf + 32767);
  show((int)(q - p));
  show((int)(p - q));
  show((int)(p - p));
  show((int)(w - r));
  show((int)(r - w));
  putchar('\n');
  return 0;
}
