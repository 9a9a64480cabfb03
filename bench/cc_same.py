"""cc_same.py WORK GENERATED [FILE]...: the table of cc-same.sh."""
import concurrent.futures
import glob
import os
import random
import re
import sys

import cc_run
import random_c

# docs/MANUAL.md, "From C to a text" and "More of the C library".
hand = ['-O1', '-g', '-U__OPTIMIZE__', '-fwrapv', '-fno-discard-value-names', '-Xclang', '-disable-llvm-passes', '-fno-pie', '-fno-builtin', '-w', '-S', '-emit-llvm']
link = cc_run.clang.replace('clang', 'llvm-link')


# What cc/library has instead of a function of library/, which the texts by hand have.
_own = re.compile(r'^(?:weak|__attribute__\(\(weak\)\))[^=;{]*?\b(\w+)\(|^also\((\w+),', re.M)
replaced = {name for path in glob.glob(cc_run.top + '/cc/library/*.c') for names in _own.findall(open(path).read()) for name in names if name}


class Plain(random_c.Program):
    """Programs of what msan takes by hand, with one variable in two left unset."""

    def __init__(self, seed):
        super().__init__(seed, 8)

    def call(self):
        name, kind = self.r.choice(self.functions)
        if kind == 'plain':
            return f'{name}({self.value(1)}, {self.value(1)})'
        return f'{name}(({self.value(1)}) & 7, {self.value(1)})'

    def value(self, depth=3):
        text = super().value(depth)
        return text if '__builtin_ffs' not in text and '__builtin_parity' not in text else self.literal()

    def statement(self):
        kinds = [self.assignment, self.assignment, self.declaration, self.declaration, self.mixed, self.array]
        if self.depth < 3:
            kinds += [self.branch, self.loop, self.choice, self.heap_block, self.jump, self.pointer, self.either]
        self.r.choice(kinds)()

    def declaration(self):
        super().declaration()
        if self.chance(4) and self.out[-1].endswith('/*init*/') and 'volatile' not in self.out[-1]:
            self.out[-1] = re.sub(r' = .*;.*', ';', self.out[-1])
        self.out[-1] = self.out[-1].replace('volatile ', '')

    def array(self):
        length, name = self.pick(2, 3, 4), self.name('a')
        self.line(f'{self.pick(*random_c.INTEGERS)} {name}[{length}] = {{{", ".join(self.value(1) for _ in range(length))}}};' if self.chance(2) else
                  f'{self.pick(*random_c.INTEGERS)} {name}[{length}]; {name}[0] = {self.value(1)};')
        self.places.append((name + '[{}]', length))

    def heap_block(self):
        p, n = self.name('p'), self.r.randrange(2, 6)
        self.line('{')
        self.line(f'  {self.pick(*random_c.INTEGERS)} *{p} = malloc({n} * sizeof *{p});')
        self.line(f'  for (int k = 0; k < {n if self.chance(2) else n - 1}; k++)')
        self.line(f'    {p}[k] = {self.value(1)} - k;')
        self.line(f'  mix({p}[{n - 1}] + {p}[0]);')
        self.line(f'  free({p});')
        self.line('}')

    def write(self):
        for text in ('#include <stdio.h>', '#include <stdlib.h>', 'union either {', '  unsigned long whole;', '  unsigned halves[2];', '  unsigned char bytes[8];', '};',
                     'static unsigned long hash = 14695981039346656037UL;', 'static int budget = 200;', 'static void mix(long v) { hash = (hash ^ (unsigned long)v) * 1099511628211UL; }'):
            self.line(text)
        self.structures, self.first_structures = [], []
        for k in range(2):
            self.line(f'static {self.pick(*random_c.INTEGERS)} g{k} = {self.literal()};')
            self.places.append((f'g{k}', 0))
        for k in range(3):
            self.function(f'f{k}', f'static long f{k}(long p{k}, long q{k})', lambda: self.body([f'p{k}', f'q{k}'], self.r.randrange(2, 4)), lambda: self.line(f'return {self.value(2)};'))
            self.functions.append((f'f{k}', 'plain'))
        self.line('int main(void) {')
        self.indent = 1
        for _ in range(self.size):
            self.statement()
        for place in self.places[:6]:
            self.line(f'if ({self.element(place)} > {self.r.randrange(100)})')
            self.line('  mix(1);')
        self.line('printf("%lx\\n", hash);')
        self.line('return 0;')
        self.indent = 0
        self.line('}')
        return '\n'.join(self.out) + '\n'


class Case:
    """A program: its file, how it is run, and flags for both ways."""

    def __init__(self, name, path, options=(), flags=(), given=b'', function=''):
        self.name, self.path, self.options, self.flags, self.given = name, path, list(options), list(flags), given
        self.function = function  # of the library, which a row is about


def shown(text, options, name):
    """What `check` says, without what is the text's own: its lines, the numbers of sites and origins."""
    ended = cc_run.run([cc_run.msan, 'check', '--where', '--reports', '20'] + options + [text], seconds=120)
    lines = []
    for line in ended.said.splitlines():
        if '.ll:' in line:
            continue
        line = re.sub(r'at site \d+ in @(\w+)[\w.]*', r'in @\1', line)  # the linker numbers functions of one name
        lines.append(re.sub(r'origin \d+', 'origin', line))
    return ended.status, ended.out, lines


def both(case, work):
    name = f'{work}/{case.name}'
    given = name + '.in'
    with open(given, 'wb') as out:
        out.write(case.given)
    options = case.options + ['--input', given]
    if cc_run.run([cc_run.clang] + hand + case.flags + [case.path, '-o', name + '.plain.ll']).status:
        return 'not compiled', '', None
    cc_run.run([link, '-S', '--only-needed', name + '.plain.ll', cc_run.top + '/library/libc.ll', '-o', name + '.plain.ll'])
    plain = shown(name + '.plain.ll', options, case.name)
    lowered = cc_run.lower([case.path], name + '.ll', case.flags)
    if lowered.status:
        return ('not lowered' if plain[0] != 5 else 'refused by both'), lowered.said[:300], None
    low = shown(name + '.ll', options, case.name)
    ratio = (os.path.getsize(name + '.ll'), os.path.getsize(name + '.plain.ll')) if '@cc_' not in open(name + '.ll').read() else None
    if plain[0] in (5, 9):
        return 'taken only lowered', plain[2][0] if plain[2] else '', None
    if plain == low:
        return 'same', f'{sum(line.startswith("report") for line in low[2])} reports', ratio
    if any('trap format' in line for line in plain[2]):
        return 'more printf', '', None
    if case.function in replaced:
        return 'another function of the library', '', None
    for a, b in zip(plain[2] + ['(end)'], low[2] + ['(end)']):
        if a != b:
            return 'DIFFERS', f'{a} | {b}', ratio
    return 'DIFFERS', f'status {plain[0]} {low[0]}, output {plain[1] == low[1]}', ratio


def rows_of(path):
    """The macros of a file of library/rows: one for each row."""
    text = open(path).read()
    return [f'clean_{name}' for name in re.findall(r'^CLEAN\((\w+)\)', text, re.M)] + [f'poisoned_{name}' for name in re.findall(r'^POISONED\((\w+)\)', text, re.M)]


def cases(work, generated, chosen):
    if not chosen:
        chosen = sorted(glob.glob('examples/*.c') + glob.glob('library/rows/*.c') + glob.glob('bench/*.c') + glob.glob('cc/tests/programs/*.c'))
    for path in chosen:
        name = os.path.basename(path)[:-2]
        if '/rows/' in path:
            for row in rows_of(path):
                yield Case(f'{name}.{row}', path, flags=[f'-DROW={row}'], function=row.split('_', 1)[1])
        else:
            yield Case(name, path)
            if '// P1' in open(path).read():
                yield Case(name + '.P1', path, flags=['-DP1'])
    for seed in range(1, generated + 1):
        path = f'{work}/generated{seed}.c'
        with open(path, 'w') as out:
            out.write(Plain(seed).write())
        yield Case(f'generated{seed}', path)


def main():
    work, generated, chosen = sys.argv[1], int(sys.argv[2]), sys.argv[3:]
    counts, sizes, reports, failed = {}, [], 0, 0
    with concurrent.futures.ThreadPoolExecutor(int(os.environ.get('JOBS', '2'))) as pool:
        for case, (word, why, ratio) in [(case, future.result()) for case, future in [(case, pool.submit(both, case, work)) for case in cases(work, generated, chosen)]]:
            kind = 'generated' if case.name.startswith('generated') else 'written'
            counts[kind, word] = counts.get((kind, word), 0) + 1
            if word == 'same':
                reports += int(why.split()[0])
                sizes += [(ratio[0] / ratio[1], case.name)] if ratio else []
            if word in ('DIFFERS', 'not lowered', 'not compiled'):
                failed += 1
                print(f'{case.name}: {word}: {why}', flush=True)
    print('programs | both texts | number\n--- | --- | ---')
    for (kind, word), number in sorted(counts.items()):
        print(f'{kind} | {word} | {number}')
    sizes.sort()
    if sizes:
        print(f'{reports} reports compared; bytes of the lowered text for one of the other: least {sizes[0][0]:.2f}, median {sizes[len(sizes) // 2][0]:.2f}, most {sizes[-1][0]:.2f} ({sizes[-1][1]}), where cc/library adds nothing')
        if sizes[-1][0] > 1.3:
            print('over 1.3: ' + ', '.join(f'{name} {ratio:.2f}' for ratio, name in sizes if ratio > 1.3))
    print(f'{sum(number for (_, word), number in counts.items() if word == "same")} passed, {failed} failed')
    return 1 if failed else 0


if __name__ == '__main__':
    sys.exit(main())
