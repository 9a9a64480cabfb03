"""cc_random.py RESULTS FIRST COUNT KIND...: random C programs, natively beside `msan run` and `msan check` of their lowered text.

KIND is `csmith` (Debian's, without floats) or `own` (random_c.py); `csmith-deleted` and `own-deleted` take one initialiser of a local variable away.
Each program is a line of the file RESULTS; one that is there already isn't done again, so a campaign goes on where it ended. At the end stands a table.

A whole program is to print natively (clang -O0 -fwrapv) what `run` and `check` print, with the same status, and to be clean. Where it isn't so, the program
is undefined in C if clang's sanitizers or Memcheck say so of the native program; otherwise the row failed. Programs that take more than 5 seconds natively,
20 million steps, or more than msan's limits are counted apart.

A program without one initialiser: msan must not say `clean` where what the program prints changes with what unset variables hold
(-ftrivial-auto-var-init=zero beside =pattern), nor where MemorySanitizer or Memcheck finds a use and the output so changes."""
import concurrent.futures
import json
import os
import random
import re
import shutil
import sys
import tempfile

import cc_run
import random_c

steps = '20000000'
native_seconds = 5


def csmith(seed):
    options = [[], ['--max-funcs', '5', '--max-block-size', '3'], ['--builtins', '--disable-builtin-kinds', 'x86,ppc', '--max-funcs', '4'], ['--max-funcs', '6', '--max-struct-fields', '5', '--bitfields']]
    made = cc_run.run(['csmith', '--seed', str(seed)] + options[seed % len(options)], seconds=20)
    return made.out.decode('latin1') if made.status == 0 else None


def without_initialiser(text, seed):
    """The text with one initialiser taken away, and which line that was; None if there is no local one."""
    lines = text.split('\n')
    ours = [k for k, line in enumerate(lines) if line.endswith('/*init*/')]
    theirs = [k for k, line in enumerate(lines) if re.match(r' +(?:volatile )?(?:u?int\d+_t|struct \w+|union \w+) \*?(l_\d+)(\[\d+\])* = [^;]*;$', line)]
    places = ours or theirs
    if not places:
        return None, 0
    k = random.Random(seed * 7919).choice(places)
    lines[k] = re.sub(r'( \*?\w+(?:\[\w*\])*) = .*;( /\*init\*/)?$', r'\1;', lines[k], count=1)
    if lines[k].rstrip().endswith('];') and '*' in lines[k]:
        return None, 0
    return '\n'.join(lines), k + 1


class Case:
    def __init__(self, kind, seed, folder):
        self.kind, self.seed = kind, seed
        self.c = f'{folder}/p.c'
        self.folder = folder
        self.flags = ['-I/usr/include/csmith'] if kind.startswith('csmith') else []

    def binary(self, name, flags):
        path = f'{self.folder}/{name}'
        return path if cc_run.build([self.c], path, self.flags + flags).status == 0 else None

    def outcome(self):
        """A word for the table, and the reason."""
        text = csmith(self.seed) if self.kind.startswith('csmith') else random_c.Program(self.seed).write()
        if text is None:
            return 'none', 'csmith made none'
        line = 0
        if self.kind.endswith('-deleted'):
            text, line = without_initialiser(text, self.seed)
            if text is None:
                return 'none', 'no initialiser of a local variable'
        with open(self.c, 'w') as out:
            out.write(text)
        native = self.binary('native', [])
        if native is None:
            return 'none', 'not compiled'
        want = cc_run.run([native], seconds=native_seconds)
        if want.status is None and not line:
            return 'apart', 'more than 5 seconds natively'
        lowered = cc_run.lower([self.c], f'{self.folder}/p.ll', self.flags)
        if lowered.status:
            said = set(re.findall(r'error: (.*)', lowered.said))
            wide = said and all('64 bits' in one for one in said)
            return ('apart', 'more than 64 bits') if wide else ('failed', 'msan-cc: ' + (sorted(said)[0] if said else lowered.said[:200]))
        checked = cc_run.msan_check(f'{self.folder}/p.ll', ['--steps', steps])
        if limit := over_limit(checked):
            return 'apart', limit
        return self.deleted(checked, line) if line else self.whole(checked, want)

    def whole(self, checked, want):
        ran = cc_run.msan_run(f'{self.folder}/p.ll', ['--steps', steps])
        same = (ran.out, checked.out, cc_run.exit_status(checked.end)) == (want.out, want.out, want.status)
        if same and checked.verdict == 'clean':
            return 'same', ''
        if why := self.undefined():
            return 'undefined', why
        if checked.verdict != 'clean':
            return 'failed', f'{checked.verdict}, {checked.first[0]} at {checked.first[1]}, {checked.end}'
        return 'failed', f'other output or status: {checked.end} natively {want.status}'

    def undefined(self):
        """What clang's sanitizers or Memcheck say of the native program, if anything."""
        said = []
        for name, flags in (('bounds', ['-fsanitize=undefined,address']), ('memory', ['-fsanitize=memory'])):
            if path := self.binary(name, flags):
                err = cc_run.run([path], seconds=20).said
                said += re.findall(r'runtime error: (?:(?!0x)[a-z ])+', err)[:1] + re.findall(r'(?:AddressSanitizer|MemorySanitizer): [\w-]+', err)[:1]
        return '; '.join(said) or self.memcheck()

    def memcheck(self):
        err = cc_run.run(['valgrind', '-q', '--error-exitcode=9', f'{self.folder}/native'], seconds=60).said
        return 'Memcheck: uninitialised' if 'uninitialised' in err else ''

    def deleted(self, checked, line):
        outputs = set()
        for fill in ('zero', 'pattern'):
            path = self.binary(fill, [f'-ftrivial-auto-var-init={fill}'])
            ended = cc_run.run([path], seconds=native_seconds)
            outputs.add((ended.status, ended.out))
        changes = len(outputs) > 1
        theirs = []
        if path := self.binary('memory', ['-fsanitize=memory']):
            ended = cc_run.run([path], seconds=20)
            theirs += ['MemorySanitizer'] if 'WARNING: MemorySanitizer' in ended.said else []
        theirs += ['Memcheck'] if self.memcheck() else []
        who = ' and '.join(theirs) or 'neither'
        changing = 'changes the output' if changes else 'changes nothing'
        if checked.verdict == 'clean' and not checked.end.startswith('trap'):
            return ('hidden' if changes else 'clean'), f'{changing}; {who}'
        if checked.verdict == 'clean':
            return ('undefined' if self.undefined() else 'failed'), f'{checked.end}; {who}'
        return checked.verdict, f'{changing}; {who}'


def over_limit(checked):
    if checked.end == 'spent':
        return 'more than 20 million steps'
    if checked.end in ('trap stack', 'trap depth', 'trap output'):
        return 'limit: ' + checked.end
    refused = re.match(r'refused (\d+): (.*)', checked.said)
    if refused and refused[1] in ('3', '6', '17') or checked.status == 9:
        return 'limit of a text: ' + (refused[2] if refused else 'bytes').split(' at ')[0]
    return ''


def one(kind, seed, kept):
    folder = tempfile.mkdtemp(prefix='cc_random.')
    try:
        case = Case(kind, seed, folder)
        word, why = case.outcome()
        if word in ('failed', 'hidden', 'unsure') or (word == 'poisoned' and 'neither' in why):
            shutil.copy(case.c, f'{kept}/{kind}.{seed}.c')
        return {'kind': kind, 'seed': seed, 'outcome': word, 'why': why}
    except Exception as fault:  # a campaign goes on
        return {'kind': kind, 'seed': seed, 'outcome': 'failed', 'why': f'{type(fault).__name__}: {fault}'}
    finally:
        shutil.rmtree(folder, ignore_errors=True)


own_names = re.compile(r'\b([fwgT]\d+|made_T\d|take_T\d|mix|hash|budget|texts|shared|table|upwards|downwards|reversed|list_sum|sum|listed|kinds|node|either|main)\b')


def several(seeds, kept):
    """Programs of our own in one text, each under names of its own, since a text costs more than a program; one by one if anything is wrong."""
    folder = tempfile.mkdtemp(prefix='cc_random.')
    try:
        case = Case('own', seeds[0], folder)
        texts = [own_names.sub(rf'\1_{seed}', random_c.Program(seed).write()) for seed in seeds]
        calls = ''.join(f'  printf("program {seed}: %d\\n", main_{seed}(argc, argv));\n' for seed in seeds)
        with open(case.c, 'w') as out:
            out.write('\n'.join(texts) + f'int main(int argc, char **argv) {{\n{calls}  return 0;\n}}\n')
        native = case.binary('native', [])
        want = cc_run.run([native], seconds=native_seconds) if native else cc_run.Ended(None, b'', b'')
        if want.status == 0 and cc_run.lower([case.c], f'{folder}/p.ll').status == 0:
            options = ['--steps', steps]
            ran, checked = cc_run.msan_run(f'{folder}/p.ll', options), cc_run.msan_check(f'{folder}/p.ll', options)
            if ran.out == checked.out == want.out and checked.end == 'exit 0' and checked.verdict == 'clean':
                return [{'kind': 'own', 'seed': seed, 'outcome': 'same', 'why': ''} for seed in seeds]
    except Exception:
        pass  # one by one
    finally:
        shutil.rmtree(folder, ignore_errors=True)
    return [one('own', seed, kept) for seed in seeds]


def campaign(results, first, count, kinds):
    done = set()
    if os.path.exists(results):
        for line in open(results):
            row = json.loads(line)
            done.add((row['kind'], row['seed']))
    kept = results + '.kept'
    os.makedirs(kept, exist_ok=True)
    tasks, own = [], []
    for seed in range(first, first + count):
        for kind in kinds:
            if (kind, seed) in done:
                continue
            if kind != 'own':
                tasks.append((lambda kind=kind, seed=seed: [one(kind, seed, kept)]))
                continue
            own.append(seed)
            if len(own) == 8:
                tasks.append(lambda seeds=own: several(seeds, kept))
                own = []
    if own:
        tasks.append(lambda: several(own, kept))
    with concurrent.futures.ThreadPoolExecutor(int(os.environ.get('JOBS', '2'))) as pool, open(results, 'a') as out:
        for future in concurrent.futures.as_completed([pool.submit(task) for task in tasks]):
            for row in future.result():
                out.write(json.dumps(row) + '\n')
            out.flush()


def table(results, kinds):
    rows = [row for row in map(json.loads, open(results)) if row['kind'] in kinds]
    print('programs | outcome | reason | number\n--- | --- | --- | ---')
    counts = {}
    for row in rows:
        key = (row['kind'], row['outcome'], row['why'])
        counts[key] = counts.get(key, 0) + 1
    for (kind, word, why), number in sorted(counts.items()):
        print(f'{kind} | {word} | {why} | {number}')
    bad = [row for row in rows if row['outcome'] in ('failed', 'hidden')]
    for row in bad:
        print(f"FAILED {row['kind']} {row['seed']}: {row['why']}")
    total = len([row for row in rows if row['outcome'] not in ('none', 'apart')])
    print(f'{total - len(bad)} passed, {len(bad)} failed')
    return 1 if bad else 0


def main():
    results, first, count, kinds = sys.argv[1], int(sys.argv[2]), int(sys.argv[3]), sys.argv[4:]
    campaign(results, first, count, kinds)
    return table(results, kinds)


if __name__ == '__main__':
    sys.exit(main())
