#!/usr/bin/env python3
"""random_c.py SEED [SIZE]: a C program, the same for the same words, that is defined with -fwrapv and ends soon. It has what csmith leaves
out: functions as values, variadic functions, structs as results, arrays of variable length, strings, recursion, goto, labels as values, unions,
the heap, qsort; and bit-fields, switch, overflow builtins, volatile. What it prints hangs on nearly all of its values.

Each initialiser of a local variable that another tool may take away stands alone on a line that ends with /*init*/."""
import random
import sys

INTEGERS = ['signed char', 'unsigned char', 'short', 'unsigned short', 'int', 'unsigned', 'long', 'unsigned long', 'long long']


heads = ('#include <stdarg.h>', '#include <stdio.h>', '#include <stdlib.h>', '#include <string.h>', '', 'struct node {', '  struct node *next;', '  long value;', '};',
         'union either {', '  unsigned long whole;', '  unsigned halves[2];', '  unsigned char bytes[8];', '};')


class Structure:
    """A struct type: members as triples of a name, a type and bits (0: no bit-field; negative: an array of so many)."""

    def __init__(self, name, members):
        self.name, self.members = name, members

    def declared(self):
        lines = [f'struct {self.name} {{']
        for name, kind, bits in self.members:
            lines.append(f'  {kind} {name}' + (f' : {bits}' if bits > 0 else f'[{-bits}]' if bits < 0 else '') + ';')
        return '\n'.join(lines + ['};'])

    def places(self, of):
        """The integers within a value."""
        for name, _, bits in self.members:
            yield f'{of}.{name}[{{}}]' if bits < 0 else f'{of}.{name}', -bits if bits < 0 else 0


class Program:
    def __init__(self, seed, size=12):
        self.r = random.Random(seed)
        self.size = size
        self.out, self.indent = [], 0
        self.number = 0
        self.places = []  # (text, length): what can be read and written; with a length, an array's element at {}
        self.constant = []  # what can only be read
        self.functions = []  # (name, kind of the function)
        self.depth = 0
        self.in_main = False

    # ---- text

    def line(self, text):
        self.out.append('  ' * self.indent + text)

    def name(self, letter):
        self.number += 1
        return f'{letter}{self.number}'

    def pick(self, *choices):
        return self.r.choice(choices)

    def chance(self, n):
        return self.r.randrange(n) == 0

    # ---- expressions: of any integer type, without side effects but for calls

    def literal(self):
        n = self.pick(0, 1, 2, 3, 7, 8, 15, 31, 64, 100, 127, 128, 255, 256, 1000, 32767, 65535, 65536, 2147483647, self.r.randrange(1 << 31))
        text = str(n) + self.pick('', '', '', 'u', 'L', 'UL')
        return f'-{text}' if self.chance(4) else text

    def element(self, place):
        text, length = place
        if not length:
            return text
        return text.format(self.r.randrange(length) if self.chance(2) else f'(unsigned)({self.value(1)}) % {length}')

    def readable(self):
        every = self.places + self.constant
        return self.element(self.r.choice(every)) if every else self.literal()

    def value(self, depth=3):
        if depth <= 0 or self.chance(5):
            return self.readable() if not self.chance(4) else self.literal()
        a = lambda: self.value(depth - 1)
        kind = self.r.randrange(16)
        if kind < 5:
            return f'({a()} {self.pick("+", "-", "*", "+", "-")} {a()})'
        if kind < 7:
            return f'({a()} {self.pick("&", "|", "^")} {a()})'
        if kind == 7:
            return f'((unsigned long)({a()}) {self.pick("<<", ">>")} ({self.value(1)} & 31))'
        if kind == 8:
            return f'({a()} {self.pick("/", "%")} (({self.value(1)} & 15) + 1))'
        if kind == 9:
            return f'({a()} {self.pick("<", ">", "<=", ">=", "==", "!=")} {a()})'
        if kind == 10:
            return f'({a()} {self.pick("&&", "||")} {a()})'
        if kind == 11:
            return f'({self.pick("-", "~", "!")}({a()}))'
        if kind == 12:
            return f'({self.pick(*INTEGERS)})({a()})'
        if kind == 13:
            return f'({a()} ? {a()} : {a()})'
        if kind == 14 and self.functions:
            return self.call()
        return f'__builtin_{self.pick("popcount", "popcountl", "bswap32", "bswap64", "ffs", "ffsl", "parity")}({a()})'

    def condition(self):
        return f'{self.value(2)} {self.pick("<", ">", "!=", "==", ">=")} {self.value(1)}' if self.chance(2) else self.value(2)

    # ---- calls

    def call(self):
        name, kind = self.r.choice(self.functions)
        few = lambda: self.value(1)
        if kind == 'plain':
            return f'{name}({few()}, {few()})'
        if kind == 'table':
            return f'{name}[({few()}) & 3]({few()}, {few()})'
        if kind == 'sum':
            count = self.r.randrange(8)
            return f'{name}({count}{"".join(f", (long)({few()})" for _ in range(count))})'
        if kind == 'kinds':
            kinds = [self.pick('i', 'l', 'u', *(('S',) if self.structure_places() else ())) for _ in range(self.r.randrange(7))]
            return f'{name}("{"".join(kinds)}"{"".join(", " + self.argument(k) for k in kinds)})'
        if kind == 'structure':
            structure = name.split('_')[1]
            return f'take_{structure}({name}({few()}))'
        if kind == 'recursive':
            return f'{name}(({few()}) & 7, {few()})'
        return f'{name}({few()}, {self.callback()})'

    def argument(self, kind):
        if kind == 'S':
            return self.r.choice(self.structure_places())
        return f'({ {"i": "int", "l": "long", "u": "unsigned"}[kind] })({self.value(1)})'

    def structure_places(self):
        return self.first_structures

    def callback(self):
        return self.pick('w0', 'w1', 'w2', 'w3')

    # ---- statements

    def assignment(self):
        to = self.element(self.r.choice(self.places))
        self.line(f'{to} {self.pick("=", "=", "+=", "-=", "^=", "*=", "|=", "&=")} {self.value()};')

    def block(self, statements):
        self.indent += 1
        kept, fixed, structures = len(self.places), len(self.constant), len(self.first_structures)
        self.depth += 1
        for _ in range(statements):
            self.statement()
        self.depth -= 1
        del self.places[kept:], self.constant[fixed:], self.first_structures[structures:]
        self.indent -= 1

    def statement(self):
        kinds = [self.assignment, self.assignment, self.declaration, self.declaration, self.mixed, self.compound]
        if self.depth < 3:
            kinds += [self.branch, self.loop, self.choice, self.variable_array, self.text, self.heap, self.jump, self.overflow, self.pointer, self.sorted, self.either, self.labels]
        self.r.choice(kinds)()

    def declaration(self):
        kind, name = self.pick(*INTEGERS), self.name('v')
        if self.chance(6):
            self.line(f'static {kind} {name} = {self.literal()};')
        elif self.chance(8):
            self.line(f'volatile {kind} {name} = {self.value(2)}; /*init*/')
        else:
            self.line(f'{kind} {name} = {self.value(2)}; /*init*/')
        self.places.append((name, 0))

    def compound(self):
        if self.chance(2):
            length, name = self.pick(2, 3, 4, 8), self.name('a')
            self.line(f'{self.pick(*INTEGERS)} {name}[{length}] = {{{", ".join(self.value(1) for _ in range(self.r.randrange(1, length + 1)))}}}; /*init*/')
            self.places.append((name + '[{}]', length))
        else:
            structure, name = self.r.choice(self.structures), self.name('s')
            how = self.r.randrange(3)
            made = f'made_{structure.name}({self.value(1)})' if how < 2 else '{' + ', '.join(self.literal() for _ in structure.members[:1]) + '}'
            if structure.members[0][2] < 0 and how == 2:
                made = '{{1}}'
            self.line(f'struct {structure.name} {name} = {made}; /*init*/')
            self.places.extend(structure.places(name))
            if structure is self.structures[0]:
                self.first_structures.append(name)

    def mixed(self):
        if self.in_main and self.chance(3):
            directive, kind = self.pick(('%d', 'int'), ('%u', 'unsigned'), ('%x', 'unsigned'), ('%ld', 'long'), ('%5d', 'int'), ('%-6ld|', 'long'), ('%08x', 'unsigned'),
                                        ('%lu', 'unsigned long'), ('%lX', 'unsigned long'), ('%c', "'a' + 15 &"), ('%+d', 'int'), ('%hhu', 'unsigned char'))
            self.line(f'printf("{directive}\\n", ' + (f"'a' + (int)(({self.value(1)}) & 15)" if directive == '%c' else f'({kind})({self.value(2)})') + ');')
        else:
            self.line(f'mix({self.value()});')

    def branch(self):
        self.line(f'if ({self.condition()}) {{')
        self.block(self.r.randrange(1, 4))
        if self.chance(2):
            self.line('} else {')
            self.block(self.r.randrange(1, 3))
        self.line('}')

    def loop(self):
        k, count = self.name('k'), self.r.randrange(1, 6)
        kind = self.r.randrange(3)
        if kind == 0:
            self.line(f'for (int {k} = 0; {k} < {count}; {k}++) {{')
        else:
            self.line(f'int {k} = {count};')
            self.line(f'while ({k}-- > 0) {{' if kind == 1 else 'do {')
        self.constant.append((k, 0))
        self.indent += 1
        if self.chance(3):
            self.line(f'if ({self.condition()}) {self.pick("continue", "break") if kind < 2 else "break"};')
        self.indent -= 1
        self.block(self.r.randrange(1, 4))
        self.line('}' if kind < 2 else f'}} while ({k}-- > 1);')
        if kind == 0:
            self.constant.pop()

    def choice(self):
        self.line(f'switch (({self.value(2)}) & 7) {{')
        for case in self.r.sample(range(8), self.r.randrange(1, 5)):
            self.line(f'case {case}: {{' if not self.chance(6) or case == 7 else f'case {case} ... {case}: {{')
            self.block(self.r.randrange(1, 3))
            self.line('}' + ('' if self.chance(3) else ' break;'))
        if self.chance(2):
            self.line('default: {')
            self.block(1)
            self.line('}')
        self.line('}')

    def variable_array(self):
        n, a, k = self.name('n'), self.name('x'), self.name('k')
        self.line('{')
        self.indent += 1
        self.line(f'int {n} = (int)(({self.value(1)}) & 7) + 2;')
        two = self.chance(3)
        self.line(f'{self.pick(*INTEGERS)} {a}[{n}]' + ('[3];' if two else ';'))
        self.line(f'for (int {k} = 0; {k} < {n}; {k}++)')
        if two:
            self.line(f'  {a}[{k}][0] = {self.value(1)}, {a}[{k}][1] = {k}, {a}[{k}][2] = {self.value(1)};')
        else:
            self.line(f'  {a}[{k}] = {self.value(2)} + {k};')
        element = f'{a}[(unsigned)({self.value(1)}) % {n}]' + ('[1]' if two else '')
        self.line(f'{element} ^= {self.value(1)};')
        self.line(f'for (int {k} = 0; {k} < {n}; {k}++)')
        self.line(f'  mix({a}[{k}]' + (f'[{k} % 3]' if two else '') + ' + (long)sizeof ' + a + ');')
        self.indent -= 1
        self.line('}')

    def text(self):
        t = self.name('t')
        self.line('{')
        self.indent += 1
        kind = self.r.randrange(4)
        if kind == 0:
            self.line(f'char {t}[40];')
            self.line(f'int n_{t} = snprintf({t}, sizeof {t}, "{self.pick("%d:%s", "%5d[%4s]", "%-4d%s", "%x%.2s")}", (int)({self.value(1)}), "{self.pick("abc", "q", "longer text")}");')
            self.line(f'mix(n_{t});')
        elif kind == 1:
            self.line(f'char {t}[40];')
            self.line(f'strcpy({t}, "{self.pick("alpha", "be", "")}");')
            self.line(f'strcat({t}, ({self.value(1)}) & 1 ? "odd" : "even");')
        elif kind == 2:
            self.line(f'char {t}[40];')
            self.line(f'for (int k = 0; k < 12; k++)')
            self.line(f"  {t}[k] = 'a' + (int)((({self.value(1)}) + k) & 15);")
            self.line(f'{t}[({self.value(1)}) & 7] = {self.pick(repr(chr(66)), repr(chr(42)))};')
            self.line(f'{t}[12] = 0;')
        else:
            self.line(f'const char *{t} = texts[({self.value(1)}) & 3];')
        self.line(f'for (const char *p = {t}; *p; p++)')
        self.line('  mix(*p);')
        self.line(f'mix((long)strlen({t}) + (strcmp({t}, "bell") < 0) + (strchr({t}, \'e\') ? 5 : 6));')
        if self.in_main:
            self.line(f'printf("%s|%10s|\\n", {t}, {t});')
        self.indent -= 1
        self.line('}')

    def heap(self):
        p, n = self.name('p'), self.r.randrange(2, 7)
        self.line('{')
        self.indent += 1
        if self.chance(2):
            kind = self.pick(*INTEGERS)
            self.line(f'{kind} *{p} = {self.pick(f"malloc({n} * sizeof *{p})", f"calloc({n}, sizeof *{p})")};')
            self.line(f'for (int k = 0; k < {n}; k++)')
            self.line(f'  {p}[k] = {self.value(2)} - k;')
            if self.chance(2):
                self.line(f'{p} = realloc({p}, {2 * n} * sizeof *{p});')
                self.line(f'memmove({p} + {n}, {p}, {n} * sizeof *{p});')
                n *= 2
            self.line(f'for (int k = 0; k < {n}; k += 1 + (({self.value(1)}) & 1))')
            self.line(f'  mix({p}[k]);')
            self.line(f'free({p});')
        else:
            self.line(f'struct node *{p} = NULL;')
            self.line(f'for (int k = 0; k < {n}; k++) {{')
            self.line('  struct node *made = malloc(sizeof *made);')
            self.line(f'  made->next = {p};')
            self.line(f'  made->value = {self.value(2)} + k;')
            self.line(f'  {p} = made;')
            self.line('}')
            if self.chance(2):
                self.line(f'{p} = reversed({p});')
            self.line(f'mix(list_sum({p}));')
        self.indent -= 1
        self.line('}')

    def jump(self):
        label, k = self.name('again'), self.name('k')
        self.line(f'int {k} = {self.r.randrange(1, 5)};')
        self.line(f'{label}:')
        self.line(f'{k}--;')
        self.constant.append((k, 0))
        self.assignment()
        self.mixed()
        self.constant.pop()
        self.line(f'if ({k} > 0 && ({self.condition()}))')
        self.line(f'  goto {label};')

    def labels(self):
        at, one, two, end = (self.name('l') for _ in range(4))
        self.line('{')
        self.indent += 1
        self.line(f'void *{at} = ({self.condition()}) ? &&{one} : &&{two};')
        self.line(f'goto *{at};')
        self.line(f'{one}:')
        self.assignment()
        self.line(f'goto {end};')
        self.line(f'{two}:')
        self.mixed()
        self.line(f'{end}:;')
        self.indent -= 1
        self.line('}')

    def overflow(self):
        kind, v = self.pick(*INTEGERS), self.name('o')
        self.line(f'{kind} {v};')
        what, one, other = self.pick('add', 'sub', 'mul'), self.pick(*INTEGERS), self.pick(*INTEGERS)
        self.line(f'mix(__builtin_{what}_overflow(({one})({self.value(2)}), ({other})({self.value(1)}), &{v}));')
        self.places.append((v, 0))

    def pointer(self):
        kind, a, p = self.pick(*INTEGERS), self.name('a'), self.name('p')
        self.line('{')
        self.indent += 1
        self.line(f'{kind} {a}[5] = {{{", ".join(self.literal() for _ in range(5))}}}, *{p} = {a} + (({self.value(1)}) & 3);')
        self.line(f'*{p} += {self.value(1)};')
        self.line(f'mix(*{p}++ + ({p} - {a}) + ({p} == {a} + 4));')
        self.line(f'{kind} **deep = &{p};')
        self.line(f'if ({p} < {a} + 5)')
        self.line(f'  **deep = {self.value(2)};')
        self.line(f'mix({a}[1] * 3 + {a}[4]);')
        self.indent -= 1
        self.line('}')

    def sorted(self):
        a, n = self.name('a'), self.r.randrange(2, 9)
        self.line('{')
        self.indent += 1
        self.line(f'long {a}[{n}];')
        self.line(f'for (int k = 0; k < {n}; k++)')
        self.line(f'  {a}[k] = ({self.value(2)}) * (k + 1) % 1000;')
        self.line(f'qsort({a}, {n}, sizeof *{a}, {self.pick("upwards", "downwards")});')
        self.line(f'for (int k = 0; k < {n}; k++)')
        self.line(f'  mix({a}[k] + k);')
        self.indent -= 1
        self.line('}')

    def either(self):
        u = self.name('u')
        self.line('{')
        self.indent += 1
        self.line(f'union either {u} = {{.whole = {self.value(2)}}}; /*init*/')
        self.line(f'{u}.{self.pick("halves[1]", "bytes[3]", "halves[0]", "bytes[7]")} ^= {self.value(1)};')
        self.line(f'mix({u}.whole + {u}.halves[({self.value(1)}) & 1] + {u}.bytes[({self.value(1)}) & 7]);')
        self.indent -= 1
        self.line('}')

    # ---- the program

    def structure(self, k):
        members = []
        for m in range(self.r.randrange(2, 6)):
            kind = self.pick(*INTEGERS)
            how = self.r.randrange(5)
            widest = {'signed char': 8, 'unsigned char': 8, 'short': 16, 'unsigned short': 16, 'int': 32, 'unsigned': 32}.get(kind, 64)
            members.append((f'm{m}', kind, self.r.randrange(2, widest + 1) if how < 2 else -self.r.randrange(2, 5) if how == 2 else 0))
        return Structure(f'T{k}', members)

    def function(self, name, head, body, result):
        self.line(head + ' {')
        self.indent = 1
        kept, fixed = list(self.places), list(self.constant)
        structures = list(self.first_structures)
        body()
        result()
        self.places, self.constant, self.first_structures = kept, fixed, structures
        self.indent = 0
        self.line('}')

    def body(self, parameters, statements):
        self.line('if (--budget < 0)')
        self.line('  return 3;')
        self.places += [(p, 0) for p in parameters]
        for _ in range(statements):
            self.statement()

    def write(self):
        for text in heads:
            self.line(text)
        self.structures = [self.structure(k) for k in range(3)]
        self.first_structures = []
        for structure in self.structures:
            for text in structure.declared().split('\n'):
                self.line(text)
        for text in ('static unsigned long hash = 14695981039346656037UL;', 'static int budget = 400;', 'static const char *const texts[4] = {"north", "east", "", "sea bell"};',
                     'static void mix(long v) { hash = (hash ^ (unsigned long)v) * 1099511628211UL; }',
                     'static int upwards(const void *a, const void *b) { return (*(const long *)a > *(const long *)b) - (*(const long *)a < *(const long *)b); }',
                     'static int downwards(const void *a, const void *b) { return upwards(b, a); }'):
            self.line(text)
        self.helpers()
        for k in range(self.r.randrange(2, 5)):
            kind, name, length = self.pick(*INTEGERS), f'g{k}', self.pick(0, 0, 4, 8)
            mark = self.pick('static ', 'static volatile ', '')
            if length:
                self.line(f'{mark}{kind} {name}[{length}] = {{{", ".join(self.literal() for _ in range(3))}}};')
                self.places.append((name + '[{}]', length))
            else:
                self.line(f'{mark}{kind} {name} = {self.literal()};')
                self.places.append((name, 0))
        self.line(f'static struct T0 shared;')
        self.places.extend(self.structures[0].places('shared'))
        self.first_structures.append('shared')
        for k in range(self.r.randrange(4, 7)):
            self.one_function(k)
        self.line('int main(int argc, char **argv) {')
        self.indent, self.in_main = 1, True
        self.constant.append(('argc', 0))
        for _ in range(self.size):
            self.statement()
        for place in self.places[:8]:
            self.line(f'mix({self.element(place)});')
        self.line('printf("%lx %d\\n", hash, argv[argc] == NULL);')
        self.line('return (int)(hash & 127);')
        self.indent = 0
        self.line('}')
        return '\n'.join(self.out) + '\n'

    def helpers(self):
        for structure in self.structures:
            t = structure.name
            self.line(f'static struct {t} made_{t}(long n) {{')
            self.line(f'  struct {t} s;')
            for number, (name, _, bits) in enumerate(structure.members):
                if bits < 0:
                    self.line(f'  for (int k = 0; k < {-bits}; k++)')
                    self.line(f'    s.{name}[k] = n * {number + 2} + k;')
                else:
                    self.line(f'  s.{name} = n * {number + 3} - {number};')
            self.line('  return s;')
            self.line('}')
            self.line(f'static long take_{t}(struct {t} s) {{')
            total = ' + '.join(f'{number + 1} * (long)s.{name}' + ('[1]' if bits < 0 else '') for number, (name, _, bits) in enumerate(structure.members))
            self.line(f'  return {total};')
            self.line('}')
            self.functions.append((f'made_{t}', 'structure'))
        for text in ('static struct node *reversed(struct node *from) {', '  struct node *to = NULL;', '  while (from) {', '    struct node *next = from->next;', '    from->next = to;', '    to = from;',
                     '    from = next;', '  }', '  return to;', '}', 'static long list_sum(struct node *from) {', '  if (!from)', '    return 0;',
                     '  long sum = from->value + 3 * list_sum(from->next);', '  free(from);', '  return sum;', '}',
                     'static long sum(int count, ...) {', '  va_list list;', '  va_start(list, count);', '  long s = count;', '  while (count-- > 0)', '    s = s * 3 + va_arg(list, long);',
                     '  va_end(list);', '  return s;', '}',
                     'static long listed(const char *kinds, va_list list) {', '  long s = 0;', '  for (; *kinds; kinds++)', '    switch (*kinds) {', "    case 'i': s = s * 5 + va_arg(list, int); break;",
                     "    case 'l': s = s * 5 + va_arg(list, long); break;", "    case 'u': s = s * 5 + va_arg(list, unsigned); break;",
                     "    case 'S': s = s * 5 + take_T0(va_arg(list, struct T0)); break;", '    }', '  return s;', '}',
                     'static long kinds(const char *kinds, ...) {', '  va_list list, again;', '  va_start(list, kinds);', '  va_copy(again, list);', '  long s = listed(kinds, list) + 7 * listed(kinds, again);',
                     '  va_end(again);', '  va_end(list);', '  return s;', '}'):
            self.line(text)
        self.functions += [('sum', 'sum'), ('kinds', 'kinds')]

    def one_function(self, k):
        name, kind = f'f{k}', self.pick(*INTEGERS)
        # A name after those that it may call, so calls never turn in a circle but by the counted one.
        plain = [name for name, what in self.functions if what == 'plain']
        has_table = any(what == 'table' for _, what in self.functions)
        how = self.r.randrange(4) if has_table else 0
        statements = self.r.randrange(2, 5)
        if how <= 1:
            self.function(name, f'static long {name}({kind} m_{k}, long n_{k})', lambda: self.body([f'm_{k}', f'n_{k}'], statements), lambda: self.line(f'return {self.value(2)};'))
            self.functions.append((name, 'plain'))
            if plain and not has_table:
                self.table(k)
        elif how == 2:
            def result():
                self.line(f'return d_{k} > 0 ? {self.value(1)} + {name}(d_{k} - 1, n_{k} + {self.literal()}) : {self.value(1)};')
            self.function(name, f'static long {name}(int d_{k}, long n_{k})', lambda: self.body([f'n_{k}'], statements), result)
            self.functions.append((name, 'recursive'))
        else:
            self.function(name, f'static long {name}(long n_{k}, long (*f)(long, long))', lambda: self.body([f'n_{k}'], statements),
                          lambda: self.line(f'return f(n_{k}, {self.value(1)}) + (f == {self.callback()} ? 1 : 2);'))
            self.functions.append((name, 'callback'))

    def table(self, k):
        """Four functions of one type in a table, each in front of a plain one."""
        plain = [name for name, what in self.functions if what == 'plain']
        for m in range(4):
            self.line(f'static long w{m}(long a, long b) {{ return {self.r.choice(plain)}(a + {m}, b) * {m + 1}; }}')
        self.line(f'static long (*{self.pick("", "const ")}table[4])(long, long) = {{w0, w1, w2, w3}};')
        self.functions.append(('table', 'table'))


def main():
    seed, size = int(sys.argv[1]), int(sys.argv[2]) if len(sys.argv) > 2 else 12
    sys.stdout.write(Program(seed, size).write())


if __name__ == '__main__':
    main()
