"""Programs of statement forms, long bodies, frames and nested expressions, with what they write."""
from arithmetic import *

SHOW = '''int putchar(int c);
static void number(long n) { if (n < 0) { putchar('-'); n = -n; } if (n > 9) number(n / 10); putchar('0' + (int) (n % 10)); }
static void item(long n) { number(n); putchar(' '); }
static void end(void) { putchar('\\n'); }
'''

STATEMENTS = SHOW + r'''
static int count;
static int tick(int n) { count++; return n; }
static void empty_forms(void) { ; ;; {} { ; } if (tick(1)) ; else item(9); while (tick(0)) ; for (; tick(0); ) ; do ; while (tick(0)); item(count); end(); }
static void ifs(int a, int b)
{
    if (a) if (b) item(1); else item(2);
    if (a) { if (b) item(3); } else item(4);
    if (a) item(5); else if (b) item(6); else item(7);
    if (!a) item(8);
    if (a && b) item(10);
    if (a || b) item(11);
    if (a ? b : !b) item(12);
    if (a, b) item(13);
    if (a == 1L) item(14);
    if (a < b) item(15); else item(16);
    end();
}
static void loops(void)
{
    int i, j, n = 0; register char c; long l;
    for (i = 0; i < 5; i++) { if (i == 1) continue; if (i == 4) break; item(i); }
    for (;;) { if (n++ > 3) break; }
    item(n);
    i = 0; while (i < 4) { i++; if (i == 2) continue; item(i); }
    i = 9; do { i--; if (i == 6) continue; item(i); } while (i > 5);
    i = 0; do item(i); while (i++ < 2);
    for (i = 0, j = 10; i < j; i += 3, j--) item(i * 100 + j);
    for (c = 250; c; c++) n++;
    item(n);
    for (l = 70000L; l > 0; l /= 10) item(l);
    for (i = 3; i--; ) for (j = i; j; --j) { if (j == 2) continue; item(i * 10 + j); }
    while (i < 5) { while (1) { if (++i % 3 == 0) break; } item(i); }
    end();
}
static int early(int n) { for (;;) { switch (n) { case 0: return 10; case 1: { int n = 20; return n; } case 2: break; default: n--; continue; } break; } do { if (n) return 30; } while (0); return 40; }
static void gives_nothing(int n) { if (n) return; item(77); }
static void gotos(void)
{
    int n = 0;
again: n++;
    if (n < 3) goto again;
    { int k = n; if (k == 3) goto inside; k = 100; inside: item(k); }
    goto over;
    item(1);
over: ;
    while (1) { for (;;) { do { goto out; } while (1); } }
out: item(n);
    { goto last; first: item(5); goto done; last: item(6); goto first; }
done: end();
}
static int device(int n)
{
    int sum = 0, k = (n + 3) / 4;
    switch (n % 4) { case 0: do { sum += 1; case 3: sum += 10; case 2: sum += 100; case 1: sum += 1000; } while (--k > 0); }
    return sum;
}
static void nested(int a, int b)
{
    int i;
    switch (a) {
        int unused;
    case 1: switch (b) { case 1: item(11); break; case 2: item(12); default: item(19); } item(10);
    case 2: item(20); break;
    default: if (b) { case 7: item(70); } else { case 8: item(80); break; }
        for (i = 0; i < 2; i++) { case 9: if (i > 5) i = 0; item(90 + i); }
    }
    switch (b) { } switch (b) default: item(33);
    switch (b) case 2: item(34);
    end();
}
static void blocks(void)
{
    int a = 1, b = a + 1; static int kept = 5; char text[4] = "abc", more[] = { 'x', 'y' }; int list[5] = { 1, 2 }; struct { char c; int i[3]; long l; } z = { 1, { 2, 3 } }, w = { 9 };
    long longs[40] = { 7 };
    item(a); item(b); { int a = 5; { int b = a * 2; item(b); a++; } item(a); } item(a);
    kept++; item(kept); item(text[0] + text[3]); item(more[1]); item(list[1] + list[4]); item(z.c + z.i[1] * 10 + z.i[2] + z.l); item(w.c + w.i[2]); item(longs[0] + longs[39]);
    for (a = 0; a < 2; a++) { int fresh = 3; static int still = 3; int zero[20] = { 0 }; fresh++; still++; zero[a]++; item(fresh * 100 + still * 10 + zero[0] + zero[1]); }
    end();
}
int main(void)
{
    int i;
    empty_forms();
    for (i = 0; i < 4; i++) ifs(i & 1, i >> 1);
    loops();
    for (i = 0; i < 4; i++) item(early(i));
    end();
    gives_nothing(1); gives_nothing(0); end();
    gotos();
    for (i = 1; i < 10; i++) item(device(i));
    end();
    nested(1, 1); nested(1, 2); nested(1, 3); nested(2, 0); nested(5, 1); nested(5, 0); nested(7, 2);
    blocks(); blocks();
    return 3;
}
'''


def long_bodies():
    """Each loop and choice over more than 300 bytes of code, so that its branches do not reach."""
    work = ' '.join('a%d = a%d * 3 + b%d - %d;' % (n % 5, (n + 1) % 5, n % 3, n * 37) for n in range(30))
    state = {'a%d' % n: n + 1 for n in range(5)}
    state.update({'b%d' % n: n * 100 for n in range(3)})
    forms = [('for (i = 0; i < 3; i++) { %s }', 3), ('i = 0; while (i < 3) { i++; %s }', 3), ('i = 3; do { %s } while (--i);', 3),
             ('for (i = 0; i < 4; i++) { if (i == 2) continue; %s if (i == 3) break; }', 3), ('if (i) { %s } else { b0++; }', 1),
             ('if (!i) { b0++; } else { %s }', 1), ('switch (i) { case 1: b1 = 0; %s case 2: b1++; break; default: %s }', None),
             ('i = 2; again: %s if (--i) goto again;', 2), ('i = 5; for (;;) { %s if (i-- < 4) break; }', 3)]
    out, wanted, calls = [SHOW, 'static int a0 = 1, a1 = 2, a2 = 3, a3 = 4, a4 = 5, b0 = 0, b1 = 100, b2 = 200;\n'], [], []

    def run():
        for n in range(30):
            state['a%d' % (n % 5)] = within('i', state['a%d' % ((n + 1) % 5)] * 3 + state['b%d' % (n % 3)] - n * 37)
    for nth, (form, turns) in enumerate(forms):
        out.append('static void form_%d(int i)\n{\n    %s\n}\n' % (nth, form.replace('%s', work)))
        for i in (1, 0) if 'if (i)' in form or 'if (!i)' in form or 'switch' in form else (1,):
            calls.append('    form_%d(%d); item(a0); item(a1); item(a2); item(a3); item(a4); item(b0); item(b1); end();\n' % (nth, i))
            if turns is None:
                if i:
                    state['b1'] = 0
                run()
                if i:
                    state['b1'] += 1
            elif turns == 1 and not i:
                state['b0'] += 1
            else:
                for _ in range(turns):
                    run()
            wanted.append(' '.join(str(state[n]) for n in ('a0', 'a1', 'a2', 'a3', 'a4', 'b0', 'b1')) + ' \n')
    big = ' + '.join('(a%d ^ %d)' % (n % 5, n * 5) for n in range(40))
    total = lambda: sum(state['a%d' % (n % 5)] ^ (n * 5) for n in range(40))
    out.append('static int wide(int i, int j) { return i && (%s) != j || i == 5 && (%s) == j ? (i ? (%s) : j) : (j, (%s) - 1); }\n' % (big, big, big, big))
    for i, j in ((0, 3), (1, 3), (5, within('i', total()))):
        calls.append('    item(wide(%d, %s)); end();\n' % (i, constant('i', j)))
        t = within('i', total())
        yes = (i != 0 and t != j) or (i == 5 and t == j)
        wanted.append('%d \n' % (t if yes else within('i', t - 1)))
    out.append('int main(void)\n{\n%s    return 0;\n}\n' % ''.join(calls))
    return ''.join(out), ''.join(wanted)


def frames():
    """Functions of 1,024 bytes of parameters and locals, near their beginning and their end."""
    shapes = [('', 'int a, char b', 1021), ('__cdecl__ ', 'int a, char b', 1021), ('', 'int a, register char b', 1021), ('', 'register int a, char b', 1021)]
    out, wanted, calls = [SHOW], [], []
    for nth, (how, params, rest) in enumerate(shapes):
        out.append('static long %sf%d(%s)\n{\n    char c[%d];\n    c[0] = 1; c[%d] = 2; c[300] = 3; c[%d] = a; c[%d] = b; c[0] += c[%d]++;\n    return c[0] * 10000L + c[%d] * 1000 + c[300] * 100 + c[%d] * 10 + c[%d] + a + b;\n}\n'
                   % (how, nth, params, rest, rest - 1, rest - 2, rest - 3, rest - 1, rest - 1, rest - 2, rest - 3))
        calls.append('    item(f%d(4, 5));\n' % nth)
        wanted.append('%d ' % (3 * 10000 + 3 * 1000 + 300 + 40 + 5 + 9))
    out.append('static int locals(void) { register int r = 3; long l = 70000L; char pad[500]; int i = 9; char more[510]; struct { int a; char b; } z; more[509] = 1; pad[0] = 2; z.b = 5; z.a = r; l += i; return (int) (l - 70000L) + more[509] * 10 + pad[0] * 100 + z.b * 1000 + z.a + r; }\n')
    calls.append('    item(locals());\n')
    wanted.append('%d ' % (9 + 10 + 200 + 5000 + 3 + 3))
    out.append('static int more(int a, ...) { char c[1020]; c[1019] = a; c[0] = 3; return c[1019] + c[0] + a; }\n')
    calls.append('    item(more(4)); item(more(4, 5, 6L));\n    end();\n')
    wanted.append('11 11 \n')
    out.append('int main(void)\n{\n%s    return 0;\n}\n' % ''.join(calls))
    return ''.join(out), ''.join(wanted)


def nested():
    """A function of 300 nested expressions, 245 operators in one, and arguments within arguments."""
    x, out = 7, [SHOW]
    lines, wanted = [], []
    for n in range(300):
        left, value = 'x', x
        for at in range(n % 20):
            op = '+-^*|'[at % 5]
            y = (n * 7 + at * 3) % 50
            left = '(%s %s %d)' % (left, op, y)
            value = binary(op, 'i', value, 'i', y)
        lines.append('    x = %s;\n' % left)
        x = value
    out.append('static int three_hundred(int x)\n{\n%s    return x;\n}\n' % ''.join(lines))
    wanted.append(x)
    left, value = 'x', 3
    for at in range(245):
        left = '%s %s %d' % (left, '+-'[at % 2], at * 3)
        value = value + at * 3 if at % 2 == 0 else value - at * 3
    out.append('static int deep(int x) { return %s; }\n' % left)
    wanted.append(within('i', value))
    right, value = '(x + 1)', 1
    for at in range(120):
        right = '(%d %s %s)' % (at, '+-'[at % 2], right)
        value = at + value if at % 2 == 0 else at - value
    out.append('static int to_the_right(void) { int x = 0; return %s; }\n' % right)
    wanted.append(within('i', value))
    called, value = '2', 2
    for at in range(60):
        called = 'add(%d, %s)' % (at, called)
        value = at + value
    out.append('static int add(int a, int b) { return a + b; }\nstatic int called(void) { return %s; }\n' % called)
    wanted.append(value)
    choice = '9'
    for at in range(60):
        choice = '(x == %d ? %d : %s)' % (at, at * 3, choice)
    out.append('static int chosen(int x) { return %s; }\n' % choice)
    wanted += [0, 177, 9]
    ands = 'x'
    for at in range(60):
        ands = '(%s && x > %d || x == %d)' % (ands, at, at)
    out.append('static int both(int x) { return %s; }\n' % ands)
    x = 30
    for at in range(60):
        x = int((x and 30 > at) or 30 == at)
    wanted.append(x)
    out.append('int main(void)\n{\n    item(three_hundred(7)); item(deep(3)); item(to_the_right()); item(called()); item(chosen(0)); item(chosen(59)); item(chosen(60)); item(both(30)); end();\n    return 0;\n}\n')
    return ''.join(out), ' '.join(str(n) for n in wanted) + ' \n'


# right sides that take no routine, and one within another
LIGHT = ['(y + z)', '(y - z)', '(y & z)', '(y | z)', '(y ^ z)', '(y - 7)', '(y + 1000)', '(y & 15)', '(y - (z + 5))', '((y ^ z) - s)']
WAITING = '+-&|^'
VALUES = [-32768, -1, 0, 200, 32767]


def light(right, y, z):
    s = 77
    return eval(right, {'y': y, 'z': z, 's': s})


def waiting():
    """Operators and comparisons of a value that a call gives and one that is computed from objects: a sum of what comes for all values."""
    out, calls, wanted = [SHOW, 'static int s = 77;\nstatic const int values[] = { %s };\n' % ', '.join('-32767 - 1' if v == -32768 else str(v) for v in VALUES)], [], []
    for kind, name in (('i', 'int'), ('u', 'unsigned int')):
        out.append('static %s same_%s(%s x) { return x; }\n' % (name, kind, name))
        for nth, right in enumerate(LIGHT):
            forms = ['h = h * 31 + (unsigned) (same_%s(x) %s %s);' % (kind, op, right) for op in WAITING]
            forms += ['if (same_%s(x) %s %s) h = h * 31 + %d;' % (kind, op, right, at + 1) for at, op in enumerate(sorted(COMPARISONS))]
            forms += ['h = h * 31 + (same_%s(x) %s %s);' % (kind, op, right) for op in sorted(COMPARISONS)]
            called = 'waiting_%s_%d' % (kind, nth)
            out.append('static unsigned %s(unsigned h, %s x, %s y, %s z)\n{\n    %s\n    return h;\n}\n' % (called, name, name, name, '\n    '.join(forms)))
            calls.append(called)
            h = 0
            for x in VALUES:
                for y in VALUES:
                    for z in VALUES[::2]:
                        x, y, z = within(kind, x), within(kind, y), within(kind, z)
                        other = within(kind, light(right, y, z))
                        for op in WAITING:
                            h = within('u', h * 31 + binary(op, kind, x, kind, other))
                        for at, op in enumerate(sorted(COMPARISONS)):
                            h = within('u', h * 31 + at + 1) if binary(op, kind, x, kind, other) else h
                        for op in sorted(COMPARISONS):
                            h = within('u', h * 31 + binary(op, kind, x, kind, other))
            wanted.append(h)
    out.append('static char text[20];\nstatic int numbers[20];\nstatic char *letter(int n) { return text + n; }\nstatic int *number_at(int n) { return numbers + n; }\n')
    out.append('static void pointers(int y)\n{\n    item(letter(3) + (y + 4) - text); item(letter(9) - (y + 4) - text); item(letter(9) - (text + 2)); item(number_at(9) - (numbers + 2));\n')
    out.append('    item(letter(3) < text + y); item(letter(3) == text + y); item(number_at(7) >= numbers + 7); item(number_at(6) != numbers + 7); end();\n}\n')
    out.append('int main(void)\n{\n    int i, j, k; unsigned h;\n')
    for called in calls:
        out.append('    h = 0; for (i = 0; i < %d; i++) for (j = 0; j < %d; j++) for (k = 0; k < %d; k += 2) h = %s(h, values[i], values[j], values[k]); item(h);\n' % (len(VALUES), len(VALUES), len(VALUES), called))
    out.append('    end(); pointers(3);\n    return 0;\n}\n')
    return ''.join(out), ' '.join(str(n) for n in wanted) + ' \n10 2 7 7 0 1 1 1 \n'


REFUSED = [
    ('frame_1025', 'int f(int a, char b) { char c[1022]; c[0] = a; return c[0] + b; }\nint main(void) { return f(1, 2); }\n', 'c65: too large: Frame 1025\nstatus 107\n'),
    ('frame_1025_again', 'int main(void) { register int r = 1; int i; char c[500], d[521]; c[0] = d[0] = i = r; return c[0]; }\n', 'c65: too large: Frame 1025\nstatus 107\n'),
    ('depth_300', 'int main(void) { int x = 1; return %sx%s; }\n' % ('(' * 300, ' + 1)' * 300), 'c65: too large: Depth 257\nstatus 107\n'),
]
