"""What the tests of cc/ share: a C program built natively, lowered by `msan-cc`, run and checked by msan, and what came of it.

The programs are named by the environment: MSAN (crates/msan/out/msan), MSAN_CC (cc/msan-cc), RELEASE of clang (19)."""
import os
import re
import signal
import subprocess

top = os.path.dirname(os.path.dirname(os.path.abspath(__file__)))
msan = os.path.abspath(os.environ.get('MSAN') or top + '/crates/msan/out/msan')
msan_cc = os.path.abspath(os.environ.get('MSAN_CC') or top + '/cc/msan-cc')
clang = 'clang-' + os.environ.get('RELEASE', '19')
native_flags = ['-w', '-O0', '-g', '-fwrapv', '-pthread']
memory_sanitizer = ['-fsanitize=memory', '-fsanitize-memory-track-origins']

# Jobs in the background of a shell ignore these, and so would the programs that are run here.
for _ignored in (signal.SIGINT, signal.SIGQUIT):
    signal.signal(_ignored, signal.SIG_DFL)


class Ended:
    """A process that ended: its status (negative: a signal; None: it took too long), output and errors as bytes."""

    def __init__(self, status, out, err):
        self.status, self.out, self.err = status, out, err

    @property
    def said(self):
        return self.err.decode('latin1')


def run(command, given=b'', seconds=60, folder=None, environment=None):
    process = subprocess.Popen(command, stdin=subprocess.PIPE, stdout=subprocess.PIPE, stderr=subprocess.PIPE, cwd=folder, start_new_session=True,
                               env={**os.environ, **environment} if environment else None)
    try:
        out, err = process.communicate(given, timeout=seconds)
        return Ended(process.returncode, out, err)
    except subprocess.TimeoutExpired:
        process.kill()
        process.communicate()
        return Ended(None, b'', b'')


def build(files, program, flags=(), folder=None):
    return run([clang] + native_flags + list(flags) + list(files) + ['-o', program], folder=folder, seconds=300)


def lower(files, text, flags=(), words=(), folder=None):
    arguments = [part for word in words for part in ('--arg', word)]
    return run([msan_cc, '-w'] + list(flags) + arguments + list(files) + ['-o', text], folder=folder, seconds=300)


class Place:
    """A place in C, or none: file without folders, line, column."""

    def __init__(self, file='', line=0, column=0):
        self.file, self.line, self.column = os.path.basename(file), int(line), int(column)

    def __eq__(self, other):
        return (self.file, self.line, self.column) == (other.file, other.line, other.column)

    def __str__(self):
        return f'{self.file}:{self.line}:{self.column}' if self.file else 'no place'


class Report:
    """A use: its kind, the rest of its line, its place, and the chain of origins as pairs of a kind and a place, the root last."""

    def __init__(self, kind, rest):
        self.kind, self.rest, self.place, self.origins = kind, rest, Place(), []

    @property
    def root(self):
        return self.origins[-1][1] if self.origins else Place()


class Checked:
    """What `msan check --where` said: the output, the end (`exit 0`, `trap shift`), the verdict, the reports, and the place of a trap."""

    def __init__(self, ended):
        self.status, self.out, self.said = ended.status, ended.out, ended.said
        self.reports, self.end, self.verdict, self.trap_place, self.blind = [], '', '', Place(), 0
        at = None
        for line in self.said.splitlines():
            if found := re.match(r'report \d+: ([\w-]+) (.*)', line):
                self.reports.append(Report(found[1], found[2]))
                at = self.reports[-1]
            elif found := re.match(r'  origin \d+: (\w+)', line):
                self.reports[-1].origins.append([found[1], Place()])
                at = self.reports[-1].origins[-1]
            elif found := re.match(r'end: (trap [\w-]+|exit \d+|\w+)', line):
                self.end, at = found[1], self
            elif found := re.match(r'verdict: (\w+)', line):
                self.verdict = found[1]
            elif found := re.match(r'blind: (\d+)', line):
                self.blind, at = int(found[1]), None  # what stands below are places of blind uses
            elif (found := re.match(r'    (\S+?):(\d+):(\d+)(: \S+)?$', line)) and at is not None:
                place, at = Place(found[1], found[2], found[3]), self._put(at, Place(found[1], found[2], found[3]))

    def _put(self, at, place):
        """Only the first place below a line counts: those after it are of calls that were inlined."""
        if isinstance(at, Report):
            at.place = place
        elif isinstance(at, list):
            at[1] = place
        else:
            self.trap_place = place

    @property
    def first(self):
        """The kind and place of the first report, or of the trap."""
        if self.reports:
            return self.reports[0].kind, self.reports[0].place
        return self.end, self.trap_place


def msan_options(given_file=None, schedule=None, steps=None, reports=None):
    options = []
    for name, value in (('--input', given_file), ('--schedule', schedule), ('--steps', steps), ('--reports', reports)):
        if value is not None:
            options += [name, str(value)]
    return options


def msan_run(text, options=(), seconds=120):
    return run([msan, 'run'] + list(options) + [text], seconds=seconds)


def msan_check(text, options=(), seconds=120):
    return Checked(run([msan, 'check', '--where'] + list(options) + [text], seconds=seconds))


def exit_status(checked_end):
    """What the system would show of `exit N`."""
    return int(checked_end.split()[1]) & 255 if checked_end.startswith('exit ') else None


def sanitizer_place(said, sources):
    """The first place of MemorySanitizer's first warning that is in one of these files, or None without a warning."""
    if 'WARNING: MemorySanitizer' not in said:
        return None
    for found in re.finditer(r'^ +#\d+ 0x\w+ in \S+ (\S+?):(\d+):(\d+)', said.split('WARNING: MemorySanitizer')[1], re.M):
        if os.path.basename(found[1]) in sources:
            return Place(found[1], found[2], found[3])
    return Place()


class Table:
    """Rows of a table on standard output, the counts, and the last line."""

    def __init__(self, *heads):
        self.passed, self.failed = 0, 0
        print(' | '.join(heads), '\n' + ' | '.join('---' for _ in heads), sep='', flush=True)

    def row(self, good, *cells, why=()):
        self.passed += bool(good)
        self.failed += not good
        print(' | '.join(str(cell) for cell in cells) + ('' if good else ' | FAILED'))
        for line in () if good else why:
            print('    ' + str(line))
        print(end='', flush=True)

    def end(self):
        print(f'{self.passed} passed, {self.failed} failed')
        return 1 if self.failed else 0
