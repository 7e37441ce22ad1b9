"""C90's arithmetic on the eight integer kinds, by whole numbers (6.2.1, 6.3), for types of 8, 16 and 32 bits.

Signed results wrap, quotients are cut toward zero, and >> of a negative number is arithmetic: docs/LANGUAGE.md.
"""
BITS = {'uc': 8, 'sc': 8, 's': 16, 'us': 16, 'i': 16, 'u': 16, 'l': 32, 'ul': 32}
SIGNED = {'sc', 's', 'i', 'l'}
NAMES = {'uc': 'unsigned char', 'sc': 'signed char', 's': 'short', 'us': 'unsigned short',
         'i': 'int', 'u': 'unsigned int', 'l': 'long', 'ul': 'unsigned long'}
KINDS = list(BITS)
EDGES = {'uc': [0, 1, 2, 7, 127, 128, 200, 255], 'sc': [-128, -127, -2, -1, 0, 1, 7, 127],
         's': [-32768, -32767, -256, -1, 0, 3, 255, 32767], 'us': [0, 1, 9, 255, 256, 32767, 32768, 65535],
         'i': [-32768, -257, -128, -1, 0, 1, 15, 256, 32767], 'u': [0, 1, 16, 127, 255, 32768, 40000, 65535],
         'l': [-2147483648, -65537, -32769, -1, 0, 1, 255, 65535, 65536, 2147483647],
         'ul': [0, 1, 31, 65535, 65536, 2147483647, 2147483648, 4294967295]}
BINARY = ['+', '-', '*', '/', '%', '<<', '>>', '&', '|', '^', '==', '!=', '<', '>', '<=', '>=']
COMPARISONS = {'==', '!=', '<', '>', '<=', '>='}


def within(kind, value, bits=None):
    """The number of the kind, or of a bit-field of so many bits of it, that is congruent to the value."""
    bits = bits or BITS[kind]
    value &= (1 << bits) - 1
    return value - (1 << bits) if kind in SIGNED and value >> (bits - 1) else value


def promoted(kind):
    return {'uc': 'i', 'sc': 'i', 's': 'i', 'us': 'u'}.get(kind, kind)


def common(a, b):
    """The type in which two operands meet."""
    a, b = promoted(a), promoted(b)
    return next(k for k in ('ul', 'l', 'u', 'i') if k in (a, b))


def result_kind(op, a, b):
    if op in COMPARISONS:
        return 'i'
    return promoted(a) if op in ('<<', '>>') else common(a, b)


def quotient(a, b):
    q = abs(a) // abs(b)
    return -q if (a < 0) != (b < 0) else q


def is_defined(op, a, b, y):
    if op in ('/', '%'):
        return within(common(a, b), y) != 0
    return op not in ('<<', '>>') or 0 <= y < BITS[promoted(a)]


def binary(op, a, x, b, y):
    """x of kind a, operator, y of kind b: the value, of the result's kind."""
    if op in ('<<', '>>'):
        kind = promoted(a)
        x = within(kind, x)
        return within(kind, x << y if op == '<<' else x >> y)
    kind = common(a, b)
    x, y = within(kind, x), within(kind, y)
    if op in COMPARISONS:
        return int({'==': x == y, '!=': x != y, '<': x < y, '>': x > y, '<=': x <= y, '>=': x >= y}[op])
    if op in ('/', '%'):
        q = quotient(x, y)
        return within(kind, q if op == '/' else x - q * y)
    return within(kind, {'+': x + y, '-': x - y, '*': x * y, '&': x & y, '|': x | y, '^': x ^ y}[op])


def unary(op, kind, x):
    """The kind and the value of an operator with one operand."""
    if op == '!':
        return 'i', int(x == 0)
    kind = promoted(kind)
    return kind, within(kind, {'-': -x, '~': ~x, '+': x}[op])


def constant(kind, value):
    """A constant expression of the kind."""
    if kind == 'i':
        return '(-32767 - 1)' if value == -32768 else '%d' % value if value >= 0 else '(%d)' % value
    if kind == 'u':
        return '%du' % value
    if kind == 'l':
        return '(-2147483647L - 1)' if value == -2147483648 else '%dL' % value if value >= 0 else '(%dL)' % value
    if kind == 'ul':
        return '%dUL' % value
    return '((%s) %d)' % (NAMES[kind], value)


class Sum:
    """What mix() in SUM keeps: a sum over values in their order, in which one wrong value always shows."""

    def __init__(self):
        self.value = 0

    def mix(self, number):
        self.value = (self.value * 3 + number) & 0xffffffff

    def shown(self):
        text = '%08x' % self.value
        self.value = 0
        return text


SUM = '''int putchar(int c);
static unsigned long sum;
static void mix(unsigned long v) { sum = sum + sum + sum + v; }
static void hex(unsigned long n, int digits) { if (digits > 1) hex(n >> 4, digits - 1); putchar("0123456789abcdef"[n & 15]); }
static void show(int end) { hex(sum, 8); putchar(end); sum = 0; }
'''
