"""Programs that put every operator and conversion on every pair of kinds, at edge values, in each kind of place."""
import random
from arithmetic import *

COUNTS = {16: [0, 1, 2, 7, 8, 9, 15], 32: [0, 1, 7, 8, 9, 15, 16, 17, 24, 31]}


def counts_for(left, right):
    return [n for n in COUNTS[BITS[promoted(left)]] if n in range(0, 128)]


def every_other(xs, ys):
    """Half of the pairs, as the loops of the programs have them: each value of one list beside every other one of the other."""
    return [(x, y) for i, x in enumerate(xs) for j, y in enumerate(ys) if i % 2 == j % 2]


def table(name, kind, values):
    return 'static %s %s[] = { %s };\n' % (NAMES[kind], name, ', '.join(constant(kind, v) for v in values))


# ---- operators between variables

# How both operands are kept: declarations, how each is set in the loops, and how each is named.
OPERANDS = [
    ('', '', '', 'left[i]', 'Y[j]'),
    ('{L} x; {R} y;', 'x = left[i];', 'y = Y[j];', 'x', 'y'),
    ('register {L} x; register {R} y;', 'x = left[i];', 'y = Y[j];', 'x', 'y'),
    ('static {L} x; static {R} y;', 'x = left[i];', 'y = Y[j];', 'x', 'y'),
    ('{L} *x; {R} *y;', 'x = left + i;', 'y = Y + j;', '*x', '*y'),
    ('struct {{ char pad[260]; {L} x; }} a; struct {{ {R} y; }} b, *q = &b;', 'a.x = left[i];', 'q->y = Y[j];', 'a.x', 'q->y'),
]


def operators(left):
    """One line for each kind of the right operand: a sum for each operator, over all pairs of values."""
    out = [SUM, table('left', left, EDGES[left])]
    wanted = []
    xs = EDGES[left]
    for at, right in enumerate(KINDS):
        ys, ns = EDGES[right], counts_for(left, right)
        out.append(table('right_' + right, right, ys) + table('count_' + right, right, ns))
        declared, set_x, set_y, x, y = OPERANDS[(at + KINDS.index(left)) % len(OPERANDS)]
        declared = declared.format(L=NAMES[left], R=NAMES[right])

        def each(expression, type_of, name, count, guard):
            sy, ey = set_y.replace('Y', name), expression
            return ('    for (i = 0; i < %d; i++) { %s for (j = i & 1; j < %d; j += 2) { %s %smix(%s); } } mix(sizeof(%s)); show(\' \');\n'
                    % (len(xs), set_x, count, sy, guard, ey, type_of))

        body, line, keep = [], [], Sum()
        for op in BINARY + ['&&', '||', ',', '?']:
            shift = op in ('<<', '>>')
            values, name = (ns, 'count_' + right) if shift else (ys, 'right_' + right)
            yy = y.replace('Y', name)
            text = '%s ? %s : %s' % (x, yy, x) if op == '?' else '(%s, %s)' % (x, yy) if op == ',' else '%s %s %s' % (x, op, yy)
            body.append(each(text, text, name, len(values), 'if (%s) ' % yy if op in ('/', '%') else ''))
            for a, b in every_other(xs, values):
                if op in ('&&', '||'):
                    keep.mix(int(a != 0 and b != 0) if op == '&&' else int(a != 0 or b != 0))
                elif op == ',':
                    keep.mix(b)
                elif op == '?':
                    keep.mix(within(common(left, right), b if a else a))
                elif is_defined(op, left, right, b):
                    keep.mix(binary(op, left, a, right, b))
            kind = 'i' if op in ('&&', '||') else right if op == ',' else common(left, right) if op == '?' else result_kind(op, left, right)
            keep.mix(BITS[kind] // 8)
            line.append(keep.shown())
        out.append('static void with_%s(void)\n{\n    int i, j; %s\n%s    putchar(10);\n}\n' % (right, declared, ''.join(body)))
        wanted.append(' '.join(line) + ' \n')
    out.append('int main(void)\n{\n%s    return 0;\n}\n' % ''.join('    with_%s();\n' % r for r in KINDS))
    return ''.join(out), ''.join(wanted)


# ---- assignments

PLACES = ['bank', 'near', 'kept', '(*far)', 'beyond', 'z.part', 'q->part']


def places_of(kind):
    name = NAMES[kind]
    return ('    register %s bank; %s near; static %s kept; %s cells[3], *far = cells + 1;\n'
            '    struct { %s first, part; } z, *q = &z; char pad[260]; %s beyond;\n'
            % ((name,) * 6))


def assignments(left):
    """One line for each kind of the right operand: a sum for each assignment, of its values and of what is kept."""
    out = [SUM, table('left', left, EDGES[left])]
    wanted = []
    for at, right in enumerate(KINDS):
        ys, ns = EDGES[right], counts_for(left, right)
        out.append(table('right_' + right, right, ys) + table('count_' + right, right, ns))
        body, line, keep = [places_of(left)], [], Sum()
        for nth, op in enumerate(['', '+', '-', '*', '/', '%', '<<', '>>', '&', '|', '^']):
            values, name = (ns, 'count_' + right) if op in ('<<', '>>') else (ys, 'right_' + right)
            place = PLACES[(at + nth) % len(PLACES)]
            guard = 'if (%s[j]) ' % name if op in ('/', '%') else ''
            body.append("    for (i = 0; i < %d; i++) for (j = i & 1; j < %d; j += 2) %s{ %s = left[i]; mix(%s %s= %s[j]); mix(%s); } mix(sizeof(%s %s= 1)); show(' ');\n"
                        % (len(EDGES[left]), len(values), guard, place, place, op, name, place, place, op))
            for x, y in every_other(EDGES[left], values):
                if not op:
                    v = within(left, y)
                elif is_defined(op, left, right, y):
                    v = within(left, binary(op, left, x, right, y))
                else:
                    continue
                keep.mix(v)
                keep.mix(v)
            keep.mix(BITS[left] // 8)
            line.append(keep.shown())
        out.append('static void with_%s(void)\n{\n    int i, j;\n%s    putchar(10);\n}\n' % (right, ''.join(body)))
        wanted.append(' '.join(line) + ' \n')
    out.append('int main(void)\n{\n%s    return 0;\n}\n' % ''.join('    with_%s();\n' % r for r in KINDS))
    return ''.join(out), ''.join(wanted)


# ---- operators with a constant

def constants(left):
    """One line for each operator: sums over the values of a variable, with constants behind it and before it."""
    r = random.Random('constants ' + left)
    out = [SUM, table('left', left, EDGES[left]), 'static %s kept;\n' % NAMES[left]]
    wanted, calls = [], []
    xs = EDGES[left]
    forms = [('', 'left[i]'), ('near = left[i];', 'near'), ('bank = left[i];', 'bank'), ('kept = left[i];', 'kept')]
    for nth, op in enumerate(BINARY):
        body, line, keep = [], [], Sum()
        for at in range(4):
            kind = ['i', 'u', 'l', 'ul'][at]
            setting, x = forms[(nth + at) % 4]
            behind = [v for v in EDGES[kind] if is_defined(op, left, kind, v)]
            if op in ('<<', '>>'):
                behind = COUNTS[BITS[promoted(left)]]
            chosen = r.sample(behind, min(3, len(behind))) if op in ('+', '-') else [r.choice(behind)]
            texts = [(('%s %s ' + constant(kind, c)) % (x, '%%' if op == '%' else op), lambda a, c=c: binary(op, left, a, kind, c)
                      if is_defined(op, left, kind, c) else None, result_kind(op, left, kind)) for c in chosen]
            before = r.choice(EDGES[kind])
            texts.append(('%s %s %s' % (constant(kind, before), op, x), lambda a: binary(op, kind, before, left, a)
                          if is_defined(op, kind, left, a) else None, result_kind(op, kind, left)))
            for text, value, kind_of in texts:
                text = text.replace('%%', '%')
                passed = [a for a in xs if value(a) is not None]
                guard = '' if len(passed) == len(xs) else 'if (%s) ' % ' || '.join(['%s == %s' % (x, constant(left, a)) for a in passed] or ['0'])
                body.append("    for (i = 0; i < %d; i++) { %s %smix(%s); } mix(sizeof(%s)); show(' ');\n" % (len(xs), setting, guard, text, text))
                for a in passed:
                    keep.mix(value(a))
                keep.mix(BITS[kind_of] // 8)
                line.append(keep.shown())
        out.append('static void operator_%d(void)\n{\n    int i; %s near; register %s bank;\n%s    putchar(10);\n}\n' % (nth, NAMES[left], NAMES[left], ''.join(body)))
        calls.append('    operator_%d();\n' % nth)
        wanted.append(' '.join(line) + ' \n')
    out.append('int main(void)\n{\n%s    return 0;\n}\n' % ''.join(calls))
    return ''.join(out), ''.join(wanted)


# ---- constant expressions

def folded():
    """One line for each kind on the left: a sum for each kind on the right, of what constant expressions are, in statements and in a table."""
    r = random.Random('folded')
    out, wanted, calls = [SUM], [], []
    for left in KINDS:
        body, line, keep = [], [], Sum()
        for right in KINDS:
            cells, cell_values = [], []
            for op in BINARY:
                for where in range(2):
                    x = r.choice(EDGES[left])
                    y = r.choice(counts_for(left, right) if op in ('<<', '>>') else [v for v in EDGES[right] if v or op not in ('/', '%')])
                    text, value = '%s %s %s' % (constant(left, x), op, constant(right, y)), binary(op, left, x, right, y)
                    if where:
                        cells.append(text)
                        cell_values.append(value)
                    else:
                        body.append('    mix(%s);\n' % text)
                        keep.mix(value)
            out.append('static unsigned long table_%s_%s[] = {\n    %s\n};\n' % (left, right, ',\n    '.join(cells)))
            body.append("    for (i = 0; i < %d; i++) mix(table_%s_%s[i]);\n    show(' ');\n" % (len(cells), left, right))
            for v in cell_values:
                keep.mix(v)
            line.append(keep.shown())
        out.append('static void from_%s(void)\n{\n    int i;\n%s    putchar(10);\n}\n' % (left, ''.join(body)))
        calls.append('    from_%s();\n' % left)
        wanted.append(' '.join(line) + ' \n')
    out.append('int main(void)\n{\n%s    return 0;\n}\n' % ''.join(calls))
    return ''.join(out), ''.join(wanted)


# ---- conversions

def conversions():
    """One line for each kind from which, a sum for each kind to which: casts, assignments, initial values, arguments, results."""
    out, wanted, calls = [SUM], [], []
    for to in KINDS:
        out.append('static %s kept_%s;\nstatic void pass_%s(%s x) { mix(x); }\nstatic void pushed_%s(%s x, char y) { mix(x); mix(y); }\n'
                   % (NAMES[to], to, to, NAMES[to], to, NAMES[to]))
    for left in KINDS:
        values = EDGES[left]
        out.append(table('from_' + left, left, values))
        body, line, keep = [], [], Sum()
        for to in KINDS:
            out.append('static %s back_%s_%s(%s x) { return x; }\n' % (NAMES[to], left, to, NAMES[left]))
            out.append('static %s first_%s_%s[] = { %s };\n' % (NAMES[to], left, to, ', '.join(constant(left, v) for v in values)))
            body.append("    for (i = 0; i < {n}; i++) {{ near = bank = from_{a}[i]; mix(({t}) near); mix(({t}) bank); mix(({t}) from_{a}[i]); {{ {t} y = near; mix(y); }} "
                        "{{ register {t} y = bank; mix(y); }} kept_{b} = near; mix(kept_{b}); mix(kept_{b} = bank); pass_{b}(near); pushed_{b}(bank, i); "
                        "mix(back_{a}_{b}(near)); mix(first_{a}_{b}[i]); mix(!({t}) near); if (({t}) near) mix(7); }} show(' ');\n"
                        .format(n=len(values), a=left, b=to, t=NAMES[to]))
            for i, v in enumerate(values):
                w = within(to, v)
                for _ in range(8):
                    keep.mix(w)
                keep.mix(w)
                keep.mix(i)
                keep.mix(w)
                keep.mix(w)
                keep.mix(int(w == 0))
                if w:
                    keep.mix(7)
            line.append(keep.shown())
        out.append('static void convert_%s(void)\n{\n    int i; %s near; register %s bank;\n%s    putchar(10);\n}\n' % (left, NAMES[left], NAMES[left], ''.join(body)))
        calls.append('    convert_%s();\n' % left)
        wanted.append(' '.join(line) + ' \n')
    out.append('int main(void)\n{\n%s    return 0;\n}\n' % ''.join(calls))
    return ''.join(out), ''.join(wanted)


# ---- operators with one operand

def steps(kinds):
    """One line for each kind: a sum for each kind of place, of unary operators, steps and conditions."""
    out, wanted, calls = [SUM], [], []
    for kind in kinds:
        values = EDGES[kind]
        out.append(table('from_' + kind, kind, values))
        body, line, keep = [places_of(kind)], [], Sum()
        for place in PLACES:
            body.append("    for (i = 0; i < %d; i++) { P = from_%s[i]; mix(-P); mix(~P); mix(!P); mix(+P); mix(P++); mix(P); mix(++P); mix(P--); mix(P); mix(--P); "
                        "mix(P ? 3 : 4); if (!P) mix(5); if (P) mix(6); else mix(8); mix(sizeof P + sizeof -P); P++; --P; mix(-(P++)); mix(P); } show(' ');\n".replace('P', place) % (len(values), kind))
            for v in values:
                for op in '-~!+':
                    keep.mix(unary(op, kind, v)[1])
                up = within(kind, v + 1)
                for w in (v, up, within(kind, v + 2), within(kind, v + 2), up, v):
                    keep.mix(w)
                keep.mix(3 if v else 4)
                if not v:
                    keep.mix(5)
                keep.mix(6 if v else 8)
                keep.mix(BITS[kind] // 8 + BITS[promoted(kind)] // 8)
                keep.mix(unary('-', kind, v)[1])
                keep.mix(up)
            line.append(keep.shown())
        out.append('static void step_%s(void)\n{\n    int i;\n%s    putchar(10);\n}\n' % (kind, ''.join(body)))
        calls.append('    step_%s();\n' % kind)
        wanted.append(' '.join(line) + ' \n')
    out.append('int main(void)\n{\n%s    return 0;\n}\n' % ''.join(calls))
    return ''.join(out), ''.join(wanted)
