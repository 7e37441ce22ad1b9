"""Programs over bit-fields, pointers, switches, calls, frames and long bodies, with what they write."""
import random
from arithmetic import *


# ---- bit-fields

def fields(signed, widths):
    """One line for each width and lowest bit: a sum over values, of what is stored and read and of the neighbours."""
    out, wanted, calls = [SUM], [], []
    kind = 'i' if signed else 'u'
    nth = 0
    for width in widths:
        for low in sorted({0, 1, (16 - width) // 2, 16 - width}):
            if low + width > 16:
                continue
            high = 16 - low - width
            members = (['unsigned before : %d;' % low] if low else []) + ['%s part : %d;' % ('signed' if signed else 'unsigned', width)] + (['unsigned after : %d;' % high] if high else [])
            place = ['z.part', 'q->part', 'kept.part', 'beyond.z.part'][nth % 4]
            base = place[:-4]
            values = [0, 1, -1, 5, 170, 257, 32767, -32768]
            body = ["    for (i = 0; i < %d; i++) { " % len(values)]
            keep = Sum()
            if low:
                body.append('%sbefore = i * 1111; ' % base)
            if high:
                body.append('%safter = i * 2222; ' % base)
            body.append('mix(P = v[i]); mix(P); mix(P++); mix(++P); mix(P--); mix(--P); mix(P - 5); mix(-P); mix(P ? 2 : 3); mix(P += v[i]); mix(P ^= 21); mix(P |= 8); mix(P &= 29); '
                        'mix(P *= 3); mix(P /= 2); mix(P %= 7); mix(P <<= 1); mix(P >>= 1); mix(P -= 9); mix(P << 1);'.replace('P', place))
            promoted_kind = 'i' if signed or width < 16 else 'u'
            for i, v in enumerate(values):
                x = within(kind, v, width)

                def step(value):
                    return within(kind, value, width)
                keep.mix(x)
                keep.mix(x)
                for w in (x, step(x + 2), step(x + 2), x):
                    keep.mix(w)
                keep.mix(within(promoted_kind, x - 5))
                keep.mix(within(promoted_kind, -x))
                keep.mix(2 if x else 3)
                for op, y in (('+', v), ('^', 21), ('|', 8), ('&', 29), ('*', 3), ('/', 2), ('%', 7), ('<<', 1), ('>>', 1), ('-', 9)):
                    x = step(binary(op, promoted_kind, x, 'i', y))
                    keep.mix(x)
                keep.mix(binary('<<', promoted_kind, x, 'i', 1))
                if low:
                    body.append(' mix(%sbefore);' % base) if not i else None
                    keep.mix(i * 1111 % (1 << low))
                if high:
                    body.append(' mix(%safter);' % base) if not i else None
                    keep.mix(i * 2222 % (1 << high))
            body.append(" } show(10);\n")
            out.append('struct f%d { %s };\nstatic void field_%d(void)\n{\n    struct f%d z, *q = &z; static struct f%d kept; struct { char pad[260]; struct f%d z; } beyond; int i;\n%s}\n'
                       % (nth, ' '.join(members), nth, nth, nth, nth, ''.join(body)))
            calls.append('    field_%d();\n' % nth)
            wanted.append(keep.shown() + '\n')
            nth += 1
    out.insert(1, 'static int v[] = { 0, 1, -1, 5, 170, 257, 32767, -32767 - 1 };\n')
    out.append('int main(void)\n{\n%s    return 0;\n}\n' % ''.join(calls))
    return ''.join(out), ''.join(wanted)


# ---- pointers

ELEMENTS = [('char', 'E'), ('int', 'E'), ('struct three { char tag; int rest; }', 'E.tag'), ('long', 'E'),
            ('struct five { char tag; long rest; }', 'E.tag'), ('struct big { char tag; char rest[299]; }', 'E.tag')]


def pointers(elements):
    """One line for each element type: a sum for each kind of index."""
    out, wanted, calls = [SUM], [], []
    for nth, (name, member) in enumerate(elements):
        word = name.split(' {')[0]
        out.append((name + ';\n' if '{' in name else '') + 'static %s cells_%d[9];\n' % (word, nth))
        body = ['    for (i = 0; i < 9; i++) %s = i + 20;\n' % member.replace('E', 'cells_%d[i]' % nth)]
        line, keep = [], Sum()
        for kind in KINDS:
            ks = [0, 1, 2, 3] + ([-1, -2, -4] if kind in SIGNED else [])
            out.append('static %s by_%d_%s[] = { %s };\n' % (NAMES[kind], nth, kind, ', '.join(str(k) for k in ks)))
            at = 'by_%d_%s[i]' % (nth, kind)
            parts = []

            def value(text):
                parts.append('mix(%s);' % member.replace('E', text))

            def place(text):
                parts.append('mix(%s - cells_%d);' % (text, nth))
            value('mid[I]'), value('(*(mid + I))'), value('(*(I + mid))'), value('(*(mid - -1 + I - 1))')
            place('(mid + I)'), place('(mid - I)')
            parts.append('p = mid; b = mid; kept = mid; p += I; b -= I; *far = mid; *far += I; kept -= I;')
            place('p'), place('b'), place('(*far)'), place('kept')
            place('p++'), place('++b'), place('(*far)--'), place('--kept'), place('p--'), place('kept++'), place('b--'), place('++*far')
            parts.append('mix(p == mid + I); mix(p != b); mix(p < b); mix(p <= b); mix(p > b); mix(p >= b); mix(p - b); mix(b - p); mix(mid[I] %s);' % '== I + 24' if '.' not in member else
                         'mix(p == mid + I); mix(p != b); mix(p < b); mix(p <= b); mix(p > b); mix(p >= b); mix(p - b); mix(b - p);')
            body.append("    for (i = 0; i < %d; i++) { %s } show(' ');\n" % (len(ks), ' '.join(parts).replace('I', at)))
            for k in ks:
                up, down = 4 + k, 4 - k
                for _ in range(4):
                    keep.mix(20 + up)
                keep.mix(up), keep.mix(down)
                keep.mix(up), keep.mix(down), keep.mix(up), keep.mix(down)
                p, b, far, kept = up, down, up, down
                keep.mix(p)
                p += 1
                b += 1
                keep.mix(b)
                keep.mix(far)
                far -= 1
                kept -= 1
                keep.mix(kept)
                keep.mix(p)
                p -= 1
                keep.mix(kept)
                kept += 1
                keep.mix(b)
                b -= 1
                far += 1
                keep.mix(far)
                for v in (p == up, p != b, p < b, p <= b, p > b, p >= b):
                    keep.mix(int(v))
                keep.mix(p - b), keep.mix(b - p)
                if '.' not in member:
                    keep.mix(1)
            line.append(keep.shown())
        out.append('static void over_%d(void)\n{\n    int i; %s *mid = cells_%d + 4, *p, *rest, **far = &rest; register %s *b; static %s *kept;\n%s    putchar(10);\n}\n'
                   % (nth, word, nth, word, word, ''.join(body)))
        calls.append('    over_%d();\n' % nth)
        wanted.append(' '.join(line) + ' \n')
    out.append('int main(void)\n{\n%s    return 0;\n}\n' % ''.join(calls))
    return ''.join(out), ''.join(wanted)


# ---- switches

def switches():
    """One line for each kind: which case each edge value comes to, with and without default, through cases that fall through."""
    r = random.Random('switches')
    out, wanted, calls = [SUM], [], []
    for kind in KINDS:
        control = promoted(kind)
        line = []
        out.append('static %s from_%s[] = { %s };\n' % (NAMES[kind], kind, ', '.join(constant(kind, v) for v in EDGES[kind])))
        for nth in range(4):
            labels = []
            for v in r.sample(EDGES[kind], 5) + [r.choice(EDGES['l']), r.choice(EDGES['i']), 300 + nth]:
                if within(control, v) not in [within(control, w) for w in labels]:
                    labels.append(v)
            at_default = r.randrange(len(labels) + 1) if nth != 1 else None
            arms, body = [], []
            for at, v in enumerate(labels + [None]):
                if at == at_default:
                    arms.append(('default', r.random() < .5))
                if v is not None:
                    arms.append((v, r.random() < .6))
            for at, (label, leaves) in enumerate(arms):
                word = 'default' if label == 'default' else 'case %s' % constant('l' if label >= -2147483648 and label <= 2147483647 else 'ul', label)
                body.append('    %s: mix(%d);%s\n' % (word, at + 1, ' break;' if leaves else ''))
            out.append('static void switch_%s_%d(%s x)\n{\n    switch (x) {\n%s    }\n    mix(99);\n}\n' % (kind, nth, NAMES[kind], ''.join(body)))
            keep = Sum()
            for x in EDGES[kind]:
                found = [at for at, (label, _) in enumerate(arms) if label != 'default' and within(control, label) == within(control, x)]
                found = found or [at for at, (label, _) in enumerate(arms) if label == 'default']
                for at in range(found[0], len(arms)) if found else []:
                    keep.mix(at + 1)
                    if arms[at][1]:
                        break
                keep.mix(99)
            line.append(keep.shown())
            calls.append("    for (i = 0; i < %d; i++) switch_%s_%d(from_%s[i]);\n    show(%s);\n" % (len(EDGES[kind]), kind, nth, kind, 10 if nth == 3 else 32))
        wanted.append(' '.join(line) + '\n')
    many = ''.join('    case %d: return %d;\n' % (n * 7 - 1000, n) for n in range(300))
    out.append('static int many(int x)\n{\n    switch (x) {\n%s    }\n    return -1;\n}\n' % many)
    calls.append('    for (i = -1010; i < 1110; i++) mix(many(i));\n    show(10);\n')
    keep = Sum()
    for x in range(-1010, 1110):
        keep.mix((x + 1000) // 7 if (x + 1000) % 7 == 0 and 0 <= (x + 1000) // 7 < 300 else -1)
    wanted.append(keep.shown() + '\n')
    out.append('int main(void)\n{\n    int i;\n%s    return 0;\n}\n' % ''.join(calls))
    return ''.join(out), ''.join(wanted)


# ---- calls

SHAPES = ['', '__cdecl__ ', '__fastcall__ ', 'old', 'variadic', 'pointer', 'register']


def calls_program(seed):
    """One line for each function: a sum of what its parameters are and what it gives, called in several ways."""
    r = random.Random('calls %d' % seed)
    out, wanted, calls = [SUM], [], []
    for nth in range(36):
        shape = SHAPES[nth % len(SHAPES)]
        count = nth // len(SHAPES) if shape not in ('variadic', 'old') else max(1, nth // len(SHAPES))
        kinds = [r.choice(KINDS) for _ in range(count)]
        back = r.choice(KINDS)
        names = ['p%d' % at for at in range(count)]
        word = 'register ' if shape == 'register' else ''
        listed = ', '.join('%s%s %s' % (word, NAMES[k], n) for k, n in zip(kinds, names)) or 'void'
        body = ['    %s\n' % ' '.join('mix(%s);' % n for n in names)] if names else []
        if names:
            changed = r.choice(names)
            body.append('    %s += 3; mix(%s);\n' % (changed, changed))
        terms = ' + '.join('%s * %d' % (n, at * 2 + 1) for at, n in enumerate(names)) or '12345'
        head = 'static %s %sf%d' % (NAMES[back], shape if shape.startswith('__') else '', nth)
        if shape == 'old':
            out.append('%s(%s) %s\n{\n%s    return %s;\n}\n' % (head, ', '.join(names), ' '.join('%s %s;' % (NAMES[k], n) for k, n in zip(kinds, names)), ''.join(body), terms))
        elif shape == 'variadic':
            out.append('%s(%s, ...)\n{\n%s    return %s;\n}\n' % (head, listed, ''.join(body), terms))
        else:
            out.append('%s(%s)\n{\n%s    return %s;\n}\n' % (head, listed, ''.join(body), terms))
        if shape == 'pointer':
            calls.append('    { static %s (*p)(%s) = f%d; ' % (NAMES[back], ', '.join(NAMES[k] for k in kinds) or 'void', nth))
            called = 'p'
        else:
            calls.append('    { ')
            called = 'f%d' % nth
        keep = Sum()
        for turn in range(3):
            given = []
            values = []
            for k in kinds:
                source = k if shape == 'old' else r.choice(KINDS)
                v = r.choice(EDGES[source])
                values.append(within(k, v))
                given.append(constant(source, v))
            if shape == 'variadic':
                for _ in range(turn):
                    kind = r.choice(KINDS)
                    given.append(constant(kind, r.choice(EDGES[kind])))
            target = ['%s', '(*%s)'][turn % 2] % called if shape == 'pointer' else called
            call = '%s(%s)' % (target, ', '.join(given))
            calls.append('mix(%s); ' % ['%s', '5 + %s', '%s - 1L'][turn] % call if turn != 2 else 'mix(%s - 1L); ' % call)
            for v in values:
                keep.mix(v)
            env = dict(zip(names, zip(kinds, values)))
            if names:
                k, v = env[changed]
                env[changed] = (k, within(k, v + 3))
                keep.mix(env[changed][1])
                kind, total = None, 0
                for at, n in enumerate(names):
                    k, v = env[n]
                    term_kind, term = common(k, 'i'), binary('*', k, v, 'i', at * 2 + 1)
                    if kind is None:
                        kind, total = term_kind, term
                    else:
                        total = binary('+', kind, total, term_kind, term)
                        kind = common(kind, term_kind)
            else:
                total = 12345
            result = within(back, total)
            keep.mix([result, binary('+', 'i', 5, back, result), binary('-', back, result, 'l', 1)][turn])
        calls.append('show(10); }\n')
        wanted.append(keep.shown() + '\n')
    out.append('int main(void)\n{\n%s    return 0;\n}\n' % ''.join(calls))
    return ''.join(out), ''.join(wanted)
