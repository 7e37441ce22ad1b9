#!/usr/bin/env python3
"""Prints for each routine of the runtime what its row says that a call takes at most, and the most that a call takes.

Instructions are counted as the rows count them: a branch is two, since one that does not reach is written as two; so are a
call of a routine and that of a hook, the hook's own row among them; and the call of the routine itself is one more.
The lines are read from the definitions that the proofs are about (crates/c65_rtl, c65_rtlwide and c65_va, specs/), and run on
states: where no loop and no call stand among them, also their longest way is found, whatever the state, which no run can
exceed. What the runs find is not proved; that it is below the cost is.

    bench/weights.py [NAME ..]      at the top of the repository
"""
import os
import random
import re
import sys

TOP = os.path.dirname(os.path.dirname(os.path.abspath(__file__)))


# -- the definitions: clauses of functions on lists of lines

def tokens(text):
    return re.findall(r'0x[0-9A-Fa-f]+|\d+|[A-Za-z_][\w.]*|∷|\+\+|\[\]|[()+\-*,]|→|λ|=', text)


class Parser:
    def __init__(self, words):
        self.words, self.at = words, 0

    def peek(self):
        return self.words[self.at] if self.at < len(self.words) else None

    def take(self):
        self.at += 1
        return self.words[self.at - 1]

    def expression(self):
        left = self.application()
        word = self.peek()
        if word in ('∷', '++', '+', '-'):
            self.take()
            right = self.expression() if word in ('∷', '++') else self.application()
            node = (word, left, right)
            while word in ('+', '-') and self.peek() in ('+', '-', '∷', '++'):
                word = self.take()
                node = (word, node, self.expression() if word in ('∷', '++') else self.application())
            return node
        return left

    def application(self):
        head, args = self.atom(), []
        while self.peek() is not None and (self.peek() in ('(', '[]') or re.match(r'[\w]', self.peek())):
            args.append(self.atom())
        return ('call', head, args) if args else head

    def atom(self):
        word = self.take()
        if word == '(':
            inner = self.expression()
            assert self.take() == ')'
            return inner
        if word == '[]':
            return ('nil',)
        if re.match(r'\d', word):
            return ('number', int(word, 0))
        return ('name', word)


def read_definitions(path):
    found = {}
    for line in open(path, encoding='utf-8'):
        clause = re.match(r'([a-z]\w*)((?: (?:\([^)]*\)|[\w.]+|\[\]))*) = (.*)$', line)
        if not clause or 'record' in line or 'if ' in line:
            continue
        patterns = Parser(tokens(clause[2]))
        args = []
        while patterns.peek() is not None:
            args.append(patterns.atom())
        try:
            found.setdefault(clause[1], []).append((args, Parser(tokens(clause[3])).expression()))
        except (AssertionError, IndexError):
            pass
    return found


class Definitions:
    def __init__(self, *paths):
        self.clauses = {}
        for path in paths:
            self.clauses.update(read_definitions(f'{TOP}/crates/{path}.antt'))

    def value(self, node, bound):
        kind = node[0]
        if kind == 'number':
            return node[1]
        if kind == 'nil':
            return []
        if kind == 'name':
            return self.named(node[1], [], bound)
        if kind == 'call':
            return self.named(node[1][1], [self.value(it, bound) for it in node[2]], bound)
        left, right = self.value(node[1], bound), self.value(node[2], bound)
        return {'∷': lambda: [left] + right, '++': lambda: left + right, '+': lambda: left + right, '-': lambda: left - right}[kind]()

    def named(self, name, args, bound):
        if name in bound and not args:
            return bound[name]
        short = name.split('.')[-1]
        if short[0].isupper():
            return (short, *args) if args else short
        for patterns, body in self.clauses[short]:
            found = {}
            if len(patterns) == len(args) and all(self.matches(p, a, found) for p, a in zip(patterns, args)):
                return self.value(body, found)
        raise KeyError(f'{name} {args}')

    def matches(self, pattern, value, found):
        if pattern[0] == 'name':
            short = pattern[1].split('.')[-1]
            if short[0].isupper():
                return value == short
            if short != '_':
                found[short] = value
            return True
        if pattern[0] == 'nil':
            return value == []
        if pattern[0] == 'call':
            head, inner = pattern[1][1].split('.')[-1], pattern[2]
            return isinstance(value, tuple) and value[0] == head and len(value) == len(inner) + 1 and all(self.matches(p, v, found) for p, v in zip(inner, value[1:]))
        return pattern == ('number', value)


NARROW = Definitions(*[f'c65_rtl/specs/{it}' for it in ('Assembly', 'Stack', 'Memory', 'Operators', 'Orders', 'Shifts', 'Unary', 'Library', 'Check', 'Routines')])
WIDE = Definitions('c65_rtl/specs/Assembly', 'c65_rtl/specs/Stack', 'c65_rtlwide/specs/Wide')
PRINTF = Definitions('c65_rtl/specs/Assembly', 'c65_va/specs/Printf')
WIDE_ONES = {('Tos', op, 'Eax') for op in ('Mul', 'Div', 'Mod', 'UDiv', 'UMod')}
HOOKS = ('HookOpen', 'HookClose', 'HookRead', 'HookWrite', 'HookArgs', 'HookExit')
KEPT = {}


def lines_of(routine):
    if routine not in KEPT:
        if routine in WIDE_ONES:
            pieces = WIDE.named('wide_pieces', [routine], {})
        elif routine == ('Library', 'Printf'):
            pieces = PRINTF.named('printf_pieces', [], {})
        else:
            pieces = NARROW.named('pieces_of', [routine], {})
        KEPT[routine] = [line for piece in pieces for line in piece]
    return KEPT[routine]


# -- the machine of lines, with D clear; a call's weight and its routine's are added

class State:
    def __init__(self, a=0, x=0, y=0, sp=0xFF00):
        self.a, self.x, self.y, self.n, self.v, self.z, self.c = a, x, y, 0, 0, 0, 0
        self.zp, self.mem, self.pushed, self.input, self.s, self.ended, self.written = [0] * 256, {}, [], [], 200, False, 0
        self.set_sp(sp)

    def sp(self):
        return self.zp[0] + 256 * self.zp[1]

    def set_sp(self, at):
        self.zp[0], self.zp[1] = at % 256, at // 256 % 256

    def word(self, at):
        return self.mem.get(at % 65536, 0) + 256 * self.mem.get((at + 1) % 65536, 0)

    def put(self, at, data):
        for step, byte in enumerate(data):
            self.mem[(at + step) % 65536] = byte

    def sign(self, byte):
        self.n, self.z = int(byte > 127), int(byte == 0)
        return byte

    def add(self, byte):
        whole = self.a + byte + self.c
        low = whole % 256
        self.v, self.c = int((self.a ^ low) & (byte ^ low) > 127), int(whole > 255)
        self.a = self.sign(low)

    def compare(self, register, byte):
        self.sign((register - byte) % 256)
        self.c = int(register >= byte)

    def change(self, op, byte):
        if op in ('Asl', 'Rol'):
            new, carry = (2 * byte) % 256 + (self.c if op == 'Rol' else 0), byte > 127
        elif op in ('Lsr', 'Ror'):
            new, carry = byte // 2 + (128 * self.c if op == 'Ror' else 0), byte % 2
        else:
            new, carry = (byte + (1 if op == 'Inc' else 255)) % 256, self.c
        self.c = int(carry)
        return self.sign(new)


TAKEN = {'Bcc': lambda t: not t.c, 'Bcs': lambda t: t.c, 'Beq': lambda t: t.z, 'Bne': lambda t: not t.z, 'Bmi': lambda t: t.n, 'Bpl': lambda t: not t.n, 'Bvc': lambda t: not t.v, 'Bvs': lambda t: t.v}


def hook(name, t):
    at, count = t.word(t.sp()), t.a + 256 * t.x
    if name == 'HookExit':
        t.ended = True
        return
    if name == 'HookRead':
        data = t.input[:count]
        t.put(at, data)
        t.input, count = t.input[len(data):], len(data)
    else:
        t.written += count
    t.set_sp((t.sp() + 4) % 65536)
    t.a, t.x = count % 256, count // 256


def place(t, mode, operand):
    at = operand[1] if isinstance(operand, tuple) else None
    if mode == 'ZeroPage':
        return ('zp', at)
    return ('mem', (t.zp[at] + 256 * t.zp[at + 1] + t.y) % 65536)


def registers(op, t):
    if op in ('Tax', 'Tay', 'Txa', 'Tya', 'Tsx'):
        setattr(t, op[2].lower(), t.sign(getattr(t, op[1].lower())))
    elif op in ('Inx', 'Iny', 'Dex', 'Dey'):
        register = op[2].lower()
        setattr(t, register, t.sign((getattr(t, register) + (1 if op[0] == 'I' else 255)) % 256))
    elif op in ('Clc', 'Sec'):
        t.c = int(op == 'Sec')
    elif op == 'Pha':
        t.pushed.append(t.a)
    else:
        assert op == 'Pla', op
        t.a = t.sign(t.pushed.pop())


def step(op, mode, operand, t):
    if mode == 'Implied':
        return registers(op, t)
    if mode == 'Accumulator':
        t.a = t.change(op, t.a)
        return None
    where = None if mode == 'Immediate' else place(t, mode, operand)
    byte = operand[1] if where is None else t.zp[where[1]] if where[0] == 'zp' else t.mem.get(where[1], 0)
    if op in ('Asl', 'Rol', 'Lsr', 'Ror', 'Inc', 'Dec'):
        new = t.change(op, byte)
    elif op in ('Sta', 'Stx', 'Sty'):
        new = getattr(t, op[2].lower())
    else:
        reads(op, byte, t)
        return None
    if where[0] == 'zp':
        t.zp[where[1]] = new
    else:
        t.mem[where[1]] = new
    return None


def reads(op, byte, t):
    if op in ('Lda', 'Ldx', 'Ldy'):
        setattr(t, op[2].lower(), t.sign(byte))
    elif op in ('Cmp', 'Cpx', 'Cpy'):
        t.compare({'Cmp': t.a, 'Cpx': t.x, 'Cpy': t.y}[op], byte)
    elif op in ('Adc', 'Sbc'):
        t.add(byte if op == 'Adc' else 255 - byte)
    else:
        t.a = t.sign({'And': t.a & byte, 'Ora': t.a | byte, 'Eor': t.a ^ byte}[op])


def labels_of(lines):
    return {line[1]: at for at, line in enumerate(lines) if line[0] == 'Label'}


def run(routine, t):
    """What the lines weigh from the first on until they come back or the run ends."""
    lines, weight, at = lines_of(routine), 0, 0
    labels = labels_of(lines)
    outer, t.pushed = t.pushed, []
    while True:
        line = lines[at]
        at += 1
        if line[0] == 'Label':
            continue
        if line[0] == 'Call':
            inner = line[1][1]
            weight += 2
            if inner in HOOKS:
                hook(inner, t)
            else:
                weight += run(inner, t)
            if t.ended:
                return weight
            continue
        _, op, mode, operand = line
        if op in TAKEN:
            weight += 2
            if TAKEN[op](t):
                at = labels[operand[1]]
            continue
        weight += 1
        if op == 'Rts':
            t.pushed = outer
            return weight
        if op == 'Jmp':
            at = labels[operand[1]]
            continue
        if op == 'Tsx':
            t.x = t.sign(t.s)
            continue
        step(op, mode, operand, t)


def longest(routine):
    """The longest way through lines that lead forward only, with the calls; none where a line leads back."""
    lines = lines_of(routine)
    labels, best = labels_of(lines), {}
    for at in range(len(lines) - 1, -1, -1):
        line = lines[at]
        if line[0] == 'Label':
            best[at] = best[at + 1]
            continue
        if line[0] == 'Call':
            inner = line[1][1]
            below = 0 if inner in HOOKS else longest(inner)
            if below is None:
                return None
            best[at] = 2 + below + (0 if inner == 'HookExit' else best[at + 1])
            continue
        op, operand = line[1], line[3]
        if op == 'Rts':
            best[at] = 1
        elif op in TAKEN or op == 'Jmp':
            to = labels[operand[1]]
            if to < at:
                return None
            best[at] = 1 + best[to] if op == 'Jmp' else 2 + max(best[to], best[at + 1])
        else:
            best[at] = 1 + best[at + 1]
    return best[0]


# -- the states that are tried

BYTES = (0, 1, 2, 127, 128, 129, 254, 255)
LOWS = (0, 1, 2, 4, 6, 250, 252, 253, 254, 255)


def number(width):
    least = [0, 1, 2, 3, 5, 10, 2 ** (width - 1), 2 ** (width - 1) - 1, 2 ** (width - 1) + 1, 2 ** width - 1, 2 ** width - 2, (2 ** width) // 3, 2 * (2 ** width // 3)]
    return random.choice(least) if random.random() < 0.7 else random.randrange(2 ** random.randrange(1, width + 1))


def primary(t, value, width):
    t.a, t.x, t.zp[2], t.zp[3] = value % 256, value // 256 % 256, value // 65536 % 256, value // 16777216


def tries_of_operator(op, width):
    bits = 16 if width == 'Ax' else 32
    for low in LOWS:
        for _ in range(400 if op in ('Mul', 'Div', 'Mod', 'UDiv', 'UMod') else 150):
            t = State(sp=0xFF00 + low if low < 240 else 0xFE00 + low)
            t.put(t.sp(), number(bits).to_bytes(bits // 8, 'little'))
            primary(t, random.choice((31, 15, 0)) if op in ('Shl', 'Shr', 'Asr') else number(bits), bits)
            yield t


def tries_of_any():
    for low in LOWS:
        for _ in range(300):
            t = State(random.choice(BYTES), random.choice(BYTES), random.choice(BYTES), 0xFE00 + low)
            t.zp[2:26] = [random.choice(BYTES) for _ in range(24)]
            t.put(0xFD00, [random.choice(BYTES) for _ in range(0x300)])
            t.input = random.choice(([], [65]))
            t.s = random.choice((20, 30, 31, 200))
            yield t


def tries_of_bytes(function, count):
    for low in (0, 250, 252, 254, 255):
        for page in (0, 1, 255):
            t = State(sp=0xFE00 + low)
            source, target = 0x2000 + page, 0x6000 + page
            t.put(source, [65] * count + [0])
            t.put(target, [65] * count + [0])
            if function in ('Memcpy', 'Memset', 'CopyTos'):
                t.put(t.sp(), (source % 256, source // 256, target % 256, target // 256) if function == 'Memcpy' else (7, 0, target % 256, target // 256) if function == 'Memset' else (target % 256, target // 256))
                primary(t, source if function == 'CopyTos' else count, 16)
                t.zp[12], t.zp[13] = count % 256, count // 256
            else:
                t.put(t.sp(), (target % 256, target // 256))
                primary(t, source, 16)
            yield t


def worst(routine, tries, limit=None):
    most = 0
    for t in tries:
        most = max(most, run(routine, t))
        if limit is not None and most == limit:
            break
    return most


def worst_by_bytes(routine, function):
    """So many for each byte, for each 256 of them and besides, that no length that is tried takes more."""
    found = {count: worst(routine, tries_of_bytes(function, count)) for count in [*range(0, 40), *range(250, 262), *range(508, 520), 700, 767, 768, 769, 1023, 1024, 1025, 1100]}
    each = max(found[count + 1] - found[count] for count in range(1, 39))
    page = max(0, -(-(found[1024] - found[0] - 1024 * each) // 4))
    return each, page, max(weight - each * count - page * (count // 256) for count, weight in found.items())


def formats():
    for base in (b'%d', b'%u', b'%x', b'%ld', b'%lu', b'%5d', b'%c', b'%9c', b'%s', b'%12s', b'a', b'%%', b'%200d', b'', b'%d%ld', b'abcdefgh%s'):
        for value in (0, 9, 0xFFFF, 0x8000, 0x80000000, 0xFFFFFFFF, 0x7FFFFFFF, 0xFFFFFFFE):
            yield base, value


def printf_state(text, value, low):
    t = State()
    arguments, texts, far = [], 0x5000, len(text) + 1
    for kind in re.findall(rb'%\d*(l?[a-z])', text):
        if kind == b's':
            t.put(texts, b'some text\0')
            arguments.append(texts.to_bytes(2, 'little'))
            far += 10
        else:
            arguments.append((value % 2 ** (32 if kind[:1] == b'l' else 16)).to_bytes(4 if kind[:1] == b'l' else 2, 'little'))
    block = b''.join(reversed(arguments)) + (0x4000).to_bytes(2, 'little')
    t.set_sp(0xFE00 + low)
    t.put(t.sp(), block)
    t.put(0x4000, text + b'\0')
    t.y = len(block)
    return t, len(block) - 2, far


# -- what is printed

COUNTS = ('One', 'Two', 'Three', 'Four', 'Five', 'Six', 'Seven', 'Eight')
ORDERS = ('Eq', 'Ne', 'Lt', 'Le', 'Gt', 'Ge', 'ULt', 'ULe', 'UGt', 'UGe')
UNARY = {'neg': 'Neg', 'compl': 'Compl', 'shl': 'Shl1', 'shr': 'Shr1', 'asr': 'Asr1', 'bneg': 'BNeg'}


def routines():
    """Each routine with a row: its name, itself, and what its row costs."""
    for name in ('PushA', 'PushAx', 'PushA0', 'Push0', 'PushEax', 'PopA', 'PopAx', 'PopEax', 'PopPtrs'):
        yield name.lower(), name, 32
    for at, count in enumerate(COUNTS):
        yield f'incsp{at + 1}', ('IncSp', count), 32
    for at, count in enumerate(COUNTS):
        yield f'decsp{at + 1}', ('DecSp', count), 32
    for name in ('AddYSp', 'SubYSp', 'LdAxYSp', 'LdAx0Sp', 'LdEaxYSp', 'StAxYSp', 'StAx0Sp', 'StEaxYSp'):
        yield name.lower(), name, 32
    for name in ('LdAi', 'LdAxi', 'LdEaxi', 'StATos', 'StAxTos', 'StEaxTos'):
        yield name.lower(), name, 256
    for width in ('Ax', 'Eax'):
        for op in ('Add', 'Sub', 'And', 'Or', 'Xor', *ORDERS):
            yield f'tos{op}{width}'.lower(), ('Tos', op, width), 256
        for op in ('Shl', 'Shr', 'Asr'):
            yield f'tos{op}{width}'.lower(), ('Tos', op, width), 512
        for op in ('Mul', 'Div', 'Mod', 'UDiv', 'UMod'):
            yield f'tos{op}{width}'.lower(), ('Tos', op, width), 2048
        for name, op in UNARY.items():
            yield f'{name}{width}'.lower() + ('1' if op.endswith('1') else ''), ('Unary', op, width), 256
    for name in ('SignA', 'LongAx', 'ULongAx', 'SaveRegs', 'RestRegs', 'StkChk'):
        yield name.lower(), name, 256
    for name in ('Putchar', 'Getchar', 'Exit'):
        yield name.lower(), ('Library', name), 256


BY_BYTES = {'CopyTos': 'CopyTos', 'Memcpy': ('Library', 'Memcpy'), 'Memset': ('Library', 'Memset'), 'Strcpy': ('Library', 'Strcpy'), 'Strcmp': ('Library', 'Strcmp'), 'Strlen': ('Library', 'Strlen'), 'Puts': ('Library', 'Puts')}


def main(names):
    random.seed(1)
    for name, routine, cost in routines():
        if names and name not in names:
            continue
        way = longest(routine)
        tries = tries_of_operator(routine[1], routine[2]) if routine[0] == 'Tos' else tries_of_any()
        most = worst(routine, tries, way)
        how = 'longest way' if way == most else f'runs; longest way {way + 1}' if way is not None else 'runs'
        print(f'{name:12} cost {cost:5}  most {most + 1:5}  ({how})')
    for function, routine in BY_BYTES.items():
        if names and function.lower() not in names:
            continue
        each, page, besides = worst_by_bytes(routine, function)
        print(f'{function.lower():12} most {each} a byte, {page} for 256 of them, and {besides + 1} besides  (runs)')
    if not names or 'printf' in names:
        most = 0
        for text, value in formats():
            for low in (0, 1, 3, 12, 250, 254, 255):
                t, taken, far = printf_state(text, value, low)
                weight = run(('Library', 'Printf'), t)
                units = taken + far + t.written
                most = max(most, (weight + 1) / units)
        print(f'printf       most {most:.0f} for each byte that is taken, read or written  (runs; its row costs 1,024 and 3,072 for each)')


if __name__ == '__main__':
    main(sys.argv[1:])
