"""cc_tests.py WORK FOLDER...: the C programs of a folder of cc/tests, as their comments say.

Comments of the whole program, each on a line of its own:

- `// args: WORD...`, `// input: TEXT` (with \\n; or the file NAME.in), `// schedule: HEX`, `// steps: N`
- `// flags: FLAG...` for clang and msan-cc, `// lowered with: FLAG...` for msan-cc alone, `// with: FILE...` that are compiled too

Without a plant a program prints natively (clang -O0) what its lowered text prints compiled, by `msan run` and by `msan check`, with the same status,
the same on standard error natively, and `verdict: clean`. A plant is a macro: with `-DP1` the program has a use. Comments at the end of a line:

- `// P1: branch "p.b"`: the first report is of this kind, at this line and at the column of that text
- `// P1: trap bad-address "text"`: the run ends with this trap there, without a report
- `// P1: branch in sort.c`: the place is in that file, of the library
- `// P1 root`: the origin's root is on this line

Each plant is also built with clang -fsanitize=memory; the table tells where that stops: at the same line, at another one, or not at all.

ONLY, of the environment, has names of rows (`vla P2,overflow`): then these alone are done, without -fsanitize=memory."""
import concurrent.futures
import os
import re
import sys

import cc_run
from cc_run import Place


only = [name for name in os.environ.get('ONLY', '').split(',') if name]


class Plant:
    def __init__(self, name):
        self.name, self.kind, self.trap, self.place, self.file, self.root = name, '', False, Place(), '', 0


class Program:
    """A test: how it is run, and its plants."""

    def __init__(self, path):
        self.path, self.folder, self.name = path, os.path.dirname(path), os.path.basename(path)[:-2]
        lines = open(path).read().split('\n')
        heads = dict(re.findall(r'^// (args|input|schedule|steps|flags|lowered with|with): (.*)$', '\n'.join(lines), re.M))
        self.words = heads.get('args', '').split()
        self.given = heads.get('input', '').encode().decode('unicode_escape').encode('latin1')
        if os.path.exists(path[:-2] + '.in'):
            self.given = open(path[:-2] + '.in', 'rb').read()
        self.flags, self.lower_flags = heads.get('flags', '').split(), heads.get('lowered with', '').split()
        self.files = [path] + [os.path.join(self.folder, name) for name in heads.get('with', '').split()]
        self.schedule, self.steps = heads.get('schedule'), heads.get('steps')
        self.plants = {}
        for number, line in enumerate(lines, 1):
            for name, rest in re.findall(r'// (P\d+)(: [^/]*| root)', line):
                self._mark(self.plants.setdefault(name, Plant(name)), number, line, rest.strip())

    def _mark(self, plant, number, line, rest):
        if rest == 'root':
            plant.root = number
            return
        found = re.match(r': (trap )?([\w-]+) (?:"(.*)"|in (\S+))$', rest)
        if not found:
            raise SystemExit(f'{self.path}:{number}: no mark: {rest}')
        plant.trap, plant.kind, plant.file = bool(found[1]), found[2], found[4] or ''
        if found[3] is not None:
            column = line.index(found[3]) + 1
            if column > line.index('//'):
                raise SystemExit(f'{self.path}:{number}: not on this line: {found[3]}')
            plant.place = Place(self.path, number, column)

    def options(self, work, tag):
        given = f'{work}/{self.name}.{tag}.in'
        with open(given, 'wb') as out:
            out.write(self.given)
        return cc_run.msan_options(given, self.schedule, self.steps)


def clean(program, work):
    """What is wrong with a program without a plant, as lines; and what MemorySanitizer says of it."""
    name, wrong = f'{work}/{program.name}', []
    built = cc_run.build(program.files, name + '.native', program.flags)
    if built.status:
        return ['native: ' + built.said[:300]], ''
    lowered = cc_run.lower(program.files, name + '.ll', program.flags + program.lower_flags, program.words)
    if lowered.status:
        return ['msan-cc: ' + lowered.said[:500]], ''
    want = cc_run.run([name + '.native'] + program.words, program.given)
    verified = cc_run.run(['opt-19', '-passes=verify', '-disable-output', name + '.ll'])
    if verified.status:
        wrong.append('opt -passes=verify: ' + verified.said[:300])
    if program.schedule:
        pass  # the library's locks are for threads that take turns
    elif not cc_run.run([cc_run.clang, '-w', '-O0', '-no-pie', '-fno-builtin', name + '.ll', '-o', name + '.low']).status:
        got = cc_run.run(['stdbuf', '-o0', name + '.low'], program.given)  # the library writes at once
        if (got.out, got.status) != (want.out, want.status):
            wrong.append(f'the lowered text, compiled: status {got.status} instead of {want.status}, {first_difference(want.out, got.out)}')
    else:
        wrong.append('the lowered text is not compiled')
    options = program.options(work, 'clean')
    ran, checked = cc_run.msan_run(name + '.ll', options), cc_run.msan_check(name + '.ll', options)
    for word, got in (('run', ran), ('check', checked)):
        if got.out != want.out:
            wrong.append(f'{word}: {first_difference(want.out, got.out)}')
    if cc_run.exit_status(checked.end) != want.status:
        wrong.append(f'check: {checked.end} instead of exit {want.status}')
    if checked.verdict != 'clean':
        wrong.append(f'check: {checked.said[:600]}')
    return wrong, sanitizer(program, work, program.name + '.msan', [])[1]


def first_difference(want, got):
    for number, (a, b) in enumerate(zip(want.split(b'\n') + [b'(end)'], got.split(b'\n') + [b'(end)']), 1):
        if a != b:
            return f'line {number} of the output is {b[:80]!r} instead of {a[:80]!r}'
    return 'same output'


def sanitizer(program, work, name, defined, more=()):
    """Where clang -fsanitize=memory stops, and in words."""
    binary = f'{work}/{name}'
    if only or cc_run.build(program.files, binary, cc_run.memory_sanitizer + list(more) + program.flags + defined).status:
        return None, 'not built'
    ended = cc_run.run([binary] + program.words, program.given, seconds=30)
    os.remove(binary)
    place = cc_run.sanitizer_place(ended.said, [os.path.basename(file) for file in program.files])
    return place, 'silent' if place is None else f'line {place.line}' if place.line else 'outside the file'


def planted(program, plant, work):
    """What is wrong with a plant; where msan and MemorySanitizer find it."""
    name = f'{work}/{program.name}.{plant.name}'
    lowered = cc_run.lower(program.files, name + '.ll', program.flags + program.lower_flags + ['-D' + plant.name], program.words)
    if lowered.status:
        return ['msan-cc: ' + lowered.said[:500]], '', ''
    checked = cc_run.msan_check(name + '.ll', program.options(work, plant.name))
    kind, place = checked.first
    wanted = ('trap ' if plant.trap else '') + plant.kind
    wrong = []
    if kind != wanted or (place != plant.place if plant.place.file else place.file != plant.file):
        wrong.append(f'{kind} at {place} instead of {wanted} at {plant.place if plant.place.file else plant.file}: {checked.said[:400]}')
    if plant.root and checked.reports and checked.reports[0].root.line != plant.root:
        wrong.append(f'root {checked.reports[0].root} instead of line {plant.root}')
    theirs, told = sanitizer(program, work, f'{program.name}.{plant.name}.msan', ['-D' + plant.name])
    if theirs is not None and theirs.line == plant.place.line:
        told = 'same line'
    elif theirs is not None and plant.place.file:
        at_use, _ = sanitizer(program, work, f'{program.name}.{plant.name}.use', ['-D' + plant.name], ['-fno-sanitize-memory-param-retval'])
        told += ', an argument or result; same line without that check' if at_use is not None and at_use.line == plant.place.line else ''
    return wrong, f'{wanted} {place}', told


def main():
    work, chosen = sys.argv[1], sys.argv[2:]
    programs = [Program(path) for path in sorted(chosen)]
    table = cc_run.Table('program', 'without a plant, or the plant', 'clang -fsanitize=memory')
    jobs = int(os.environ.get('JOBS', '2'))
    counts = {}
    with concurrent.futures.ThreadPoolExecutor(jobs) as pool:
        futures = []
        for program in programs:
            if not only or program.name in only:
                futures.append((program, None, pool.submit(clean, program, work)))
            for plant in program.plants.values():
                if not only or f'{program.name} {plant.name}' in only:
                    futures.append((program, plant, pool.submit(planted, program, plant, work)))
        for program, plant, future in futures:
            if plant is None:
                wrong, told = future.result()
                table.row(not wrong, program.name, 'native = lowered = run = check, clean' if not wrong else 'wrong', told, why=wrong)
            else:
                wrong, found, told = future.result()
                counts[told.split(' ')[0]] = counts.get(told.split(' ')[0], 0) + 1
                table.row(not wrong, f'{program.name} {plant.name}', found, told, why=wrong)
    print('of the plants, clang -fsanitize=memory: ' + ', '.join(f'{counts.get(word, 0)} {meaning}' for word, meaning in (
        ('same', 'at the same line'), ('line', 'at another line'), ('outside', 'outside the file'), ('silent', 'not found'), ('not', 'not built'))))
    return table.end()


if __name__ == '__main__':
    sys.exit(main())
