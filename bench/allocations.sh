#!/usr/bin/env bash
# Refuses each allocation of some commands in turn, and prints how many there were of each. Every time the command has to
# end with want of memory (101) and leave nothing behind, or to give its own answer, where it can do without that memory.
# Usage, at the top of the repository, where the program is built: bench/allocations.sh. It wants a C compiler, for a
# library that stands between the program and its allocator.
set -eu
c65=${C65:-$PWD/crates/c65/out/c65}
folder=$(mktemp -d)
trap 'rm -rf "$folder"' EXIT

cat >"$folder/refuse.c" <<'END'
#include <errno.h>
#include <stdio.h>
#include <stdlib.h>

void *__libc_malloc(size_t);
void *__libc_calloc(size_t, size_t);
void *__libc_realloc(void *, size_t);
void *__libc_memalign(size_t, size_t);

static long made, refused;

__attribute__((constructor)) static void begin(void)
{
    const char *number = getenv("REFUSED");
    refused = number ? atol(number) : 0;
}

__attribute__((destructor)) static void end(void)
{
    const char *path = getenv("MADE");
    const long count = made;
    FILE *file;
    refused = 0;
    file = path ? fopen(path, "w") : NULL;
    if (file) {
        fprintf(file, "%ld\n", count);
        fclose(file);
    }
}

static int refuses(void)
{
    if (++made != refused) return 0;
    errno = ENOMEM;
    return 1;
}

void *malloc(size_t size) { return refuses() ? NULL : __libc_malloc(size); }
void *calloc(size_t count, size_t size) { return refuses() ? NULL : __libc_calloc(count, size); }
void *realloc(void *old, size_t size) { return refuses() ? NULL : __libc_realloc(old, size); }
void *aligned_alloc(size_t to, size_t size) { return refuses() ? NULL : __libc_memalign(to, size); }

int posix_memalign(void **made_at, size_t to, size_t size)
{
    if (refuses()) return ENOMEM;
    *made_at = __libc_memalign(to, size);
    return *made_at ? 0 : ENOMEM;
}
END
cc -shared -fPIC -O1 -o "$folder/refuse.so" "$folder/refuse.c"

cat >"$folder/words.c" <<'END'
#include <stdio.h>
static void num(unsigned n){if(n>9)num(n/10);putchar('0'+n%10);}
int main(void){
int c;unsigned l=0,w=0,b=0;char in=0;
while((c=getchar())!=EOF){
++b;if(c=='\n')++l;
if(c==' '||c=='\n'||c=='\t')in=0;
else if(!in){in=1;++w;}
}
num(l);putchar(' ');num(w);putchar(' ');num(b);putchar('\n');
return 0;
}
END
printf 'a b\nc\n' >"$folder/input"
cd "$folder"
"$c65" build -o image words.c

# Does the command with its Nth allocation refused, or with none refused for 0; what it left is in `left`.
perform() {
    local refused=$1 status=0
    shift
    rm -f made.out
    REFUSED=$refused MADE=$folder/made LD_PRELOAD=$folder/refuse.so "$c65" "$@" <input >out 2>err || status=$?
    { echo "status $status"; cat out err; [ ! -e made.out ] || cksum <made.out; } >left
}

# Refuses each allocation of a command.
try_each() {
    local number failures=0
    perform 0 "$@"
    cp left wanted
    local count
    count=$(cat made)
    printf 'status 101\nc65: out of memory\n' >lacking
    echo 'status 101' >silent
    for ((number = 1; number <= count; number++)); do
        perform "$number" "$@"
        cmp -s left wanted || cmp -s left lacking || cmp -s left silent || {
            failures=$((failures + 1))
            echo "c65 $*: allocation $number refused gives $(head -n 1 left)"
        }
    done
    echo "c65 $*: $count allocations refused, $failures with another answer"
    [ "$failures" = 0 ]
}

try_each go words.c
try_each go -Oirs words.c
try_each build -Oirs -o made.out words.c
try_each text -Oirs words.c
try_each gen 2
try_each depth words.c
try_each run image
