"""cc_driver.py WORK: what `msan-cc` is besides a lowering: a compiler for a makefile, a first report in one command, options of its own."""
import os
import sys

import cc_run

unset = '''#include <stdio.h>
int main(int argc, char **argv) {
  int wanted;
  if (argc > 3)
    wanted = 1;
  if (wanted > 0)
    puts(argv[0]);
  printf("%d\\n", argc);
  return 3;
}
'''
threads = '#include <pthread.h>\n#include <sched.h>\n#include <stdio.h>\n'
files = {
    'unset.c': unset,
    'clean.c': unset.replace('int wanted;', 'int wanted = 0;'),
    'broken.c': 'int main(void) { return x; }\n',
    'add.c': '#include "sum.h"\nint add(int a, int b) { return a + b + OFFSET; }\n',
    'sub.c': '#include "sum.h"\nint sub(int a, int b) { return a - b; }\n',
    'include/sum.h': 'int add(int, int);\nint sub(int, int);\n',
    'main.c': '#include <stdio.h>\n#include "sum.h"\nint main(void) { printf("%d %d\\n", add(2, 3), sub(9, 4)); return 0; }\n',
    'Makefile': 'CFLAGS = -O2 -g -Iinclude -DOFFSET=100 -MD -Wall\nAR = llvm-ar-19\nall: program\nlibsum.a: add.o sub.o\n\t$(AR) rcs $@ $^\n'
                'program: main.o libsum.a\n\t$(CC) $(LDFLAGS) -o $@ main.o -L. -lsum -lm -Wl,--as-needed\n',
    'own.c': '#include <stdio.h>\n#include <string.h>\nchar *strcpy(char *to, const char *from) { puts("own"); *to = *from; return to; }\n'
             'int main(void) { char t[4] = ""; strcpy(t, "abc"); puts(t); return 0; }\n',
    'missing.c': '#include <stdio.h>\nint lost(int);\nint main(int argc, char **argv) { if (argc > 1) return lost(argc); puts(argv[0] ? "kept" : "?"); return 0; }\n',
    'words.c': '#include <stdio.h>\nint main(int argc, char **argv) { for (int k = 1; k < argc; k++) printf("[%s]", argv[k]); putchar(10); return 0; }\n',
    'two.c': 'int add(int a, int b) { return a; }\nint sub(int a, int b) { return b; }\n',
    'many.c': 'int puts(const char *);\nint main(void) { int a, b; if (a) puts("a"); if (b) puts("b"); return 0; }\n',
    'c23.c': '''#include <stdio.h>
long read_number(const char *, char **, int) __asm__("__isoc23_strtol"); /* what C23's strtol is called in headers of glibc 2.38 */
int main(void) {
  const char *texts[] = {"0b101", " -0B11z", "0b", "0b2", "0x1f", "017"};
  for (int k = 0; k < 6; k++) {
    char *end;
    long number = read_number(texts[k], &end, 0);
    printf("%ld \\"%s\\"\\n", number, end);
  }
  return 0;
}
''',
    'mutex.c': threads + '''static pthread_mutex_t lock = PTHREAD_MUTEX_INITIALIZER;
static int begun, sum;
static void *add(void *given) {
  begun++;
  pthread_mutex_lock(&lock);
  sum += *(int *)given;
  pthread_mutex_unlock(&lock);
  return NULL;
}
int main(void) {
  int two[2] = {1, 2};
  pthread_t each[2];
  pthread_mutex_lock(&lock);
  for (int k = 0; k < 2; k++)
    pthread_create(&each[k], NULL, add, &two[k]);
  while (begun < 2)
    sched_yield();
  pthread_mutex_unlock(&lock);
  for (int k = 0; k < 2; k++)
    pthread_join(each[k], NULL);
  return !printf("%d\\n", sum);
}
''',
    'condition.c': threads + '''static pthread_mutex_t lock = PTHREAD_MUTEX_INITIALIZER;
static pthread_cond_t is_last = PTHREAD_COND_INITIALIZER;
static int last;
static void *work(void *number) {
  pthread_mutex_lock(&lock);
  while (last != *(int *)number)
    pthread_cond_wait(&is_last, &lock);
  last--;
  pthread_cond_broadcast(&is_last);
  pthread_mutex_unlock(&lock);
  return NULL;
}
int main(void) {
  int numbers[COUNT];
  pthread_t each[COUNT];
  for (int k = 0; k < COUNT; k++) {
    numbers[k] = k + 1;
    pthread_create(&each[k], NULL, work, &numbers[k]);
  }
  pthread_mutex_lock(&lock);
  last = COUNT; /* each waits for the one that was made after it */
  pthread_cond_broadcast(&is_last);
  while (last > 0)
    pthread_cond_wait(&is_last, &lock);
  pthread_mutex_unlock(&lock);
  for (int k = 0; k < COUNT; k++)
    pthread_join(each[k], NULL);
  return !printf("%d\\n", last);
}
''',
    'semaphores.c': threads + '''#include <semaphore.h>
static sem_t empty, full;
static int slot;
static void *make(void *given) {
  for (int k = 1; k <= 3; k++) {
    int made;
    if (k < *(int *)given)
      made = 10 * k;
    sem_wait(&empty);
    slot = made;
    sem_post(&full);
  }
  return NULL;
}
int main(void) {
  int first = FIRST;
  pthread_t maker;
  sem_init(&empty, 0, 1);
  sem_init(&full, 0, 0);
  pthread_create(&maker, NULL, make, &first);
  for (int k = 0; k < 3; k++) {
    sem_wait(&full);
    if (slot > 15)
      puts("much");
    sem_post(&empty);
  }
  return pthread_join(maker, NULL);
}
''',
    'kept.c': 'extern int puts(const char *);\nint main(void) { puts("kept"); return 0; }\n',
}


class Checks:
    def __init__(self, folder):
        self.folder, self.table = folder, cc_run.Table('msan-cc', 'what')
        for name, text in files.items():
            path = f'{folder}/{name}'
            os.makedirs(os.path.dirname(path), exist_ok=True)
            with open(path, 'w') as out:
                out.write(text)

    def cc(self, *words):
        return cc_run.run([cc_run.msan_cc, *words], folder=self.folder, environment={'MSAN': cc_run.msan})

    def is_so(self, what, good, *seen):
        self.table.row(good, 'ok' if good else 'not so', what, why=seen)

    def check_word(self):
        here = set(os.listdir(self.folder))
        ended = self.cc('--check', 'unset.c')
        self.is_so('--check: a report with its place, the output, status 77',
                   ended.status == 77 and 'report 1: branch at site' in ended.said and '\n    unset.c:6:7\n' in ended.said and ended.out == b'', ended.status, ended.said)
        self.is_so('--check: the root and the verdict', 'unset.c:3:3' in ended.said and ended.said.rstrip().endswith('verdict: poisoned'), ended.said)
        ended = self.cc('--check', 'clean.c')
        self.is_so('--check of a clean program: its output, status 0', (ended.status, ended.out) == (0, b'1\n') and 'verdict: clean' in ended.said, ended.status, ended.out, ended.said)
        ended = self.cc('--check', '--arg', 'a', '--arg', 'b', 'clean.c')
        self.is_so('--check with --arg', ended.out == b'3\n', ended.out)
        ended = self.cc('--check', 'many.c', '--', '--reports', '2')
        self.is_so('--check FILE -- options of msan', 'report 2: ' in ended.said, ended.said)
        ended = self.cc('--run', 'clean.c')
        self.is_so('--run: the output, no verdict', ended.out == b'1\n' and ended.status == 0 and 'verdict' not in ended.said, ended.status, ended.said)
        ended = self.cc('--check', 'broken.c')
        self.is_so('--check of what does not compile: clang\'s error, no report, status 1', ended.status == 1 and "broken.c:1:25: error: use of undeclared identifier 'x'" in ended.said,
                   ended.status, ended.said)
        self.is_so('--check, --run leave nothing behind', set(os.listdir(self.folder)) == here, sorted(set(os.listdir(self.folder)) - here))
        self.cc('unset.c', '-o', 'unset.ll')
        by_hand = cc_run.run([cc_run.msan, 'check', '--where', 'unset.ll'], folder=self.folder)
        places = lambda said: [line for line in said.splitlines() if '.ll:' not in line]
        ended = self.cc('--check', 'unset.c')
        self.is_so('--check says what msan check --where of the text says', places(ended.said) == places(by_hand.said) and ended.status == by_hand.status, ended.said, by_hand.said)

    def makefile(self):
        ended = cc_run.run(['make', '-s', f'CC={cc_run.msan_cc}', 'LDFLAGS='], folder=self.folder)
        checked = cc_run.Checked(cc_run.run([cc_run.msan, 'check', '--where', 'program'], folder=self.folder))
        self.is_so('make CC=msan-cc AR=llvm-ar-19, with an archive', ended.status == 0 and checked.out == b'105 5\n' and checked.verdict == 'clean', ended.said, checked.said)
        made = f'{self.folder}/add.d'
        self.is_so('-MD writes what add.o hangs on', os.path.exists(made) and 'include/sum.h' in open(made).read())
        ended = cc_run.run(['make', '-s', f'CC={cc_run.msan_cc}'], folder=self.folder)
        self.is_so('a second make has nothing to do', ended.status == 0 and ended.out == b'', ended.out)

    def words(self):
        ended = self.cc('--run', '--arg', 'one word', '--arg', '', '--arg', '-x', 'words.c')
        self.is_so('--arg: words with spaces, empty ones, with a minus', ended.out == b'[one word][][-x]\n', ended.out, ended.said)
        ended = self.cc('--check', 'own.c')
        self.is_so('a function of the program wins over the library\'s', ended.out == b'own\na\n', ended.out, ended.said)
        ended = self.cc('main.c', 'add.c', 'two.c', '-Iinclude', '-DOFFSET=1', '-o', 'twice.ll')
        self.is_so('two functions of one name: refused by the linker, nothing written', ended.status not in (0, None) and not os.path.exists(f'{self.folder}/twice.ll'), ended.status, ended.said)
        ended = self.cc('--check', 'c23.c')
        self.is_so('strtol of C23 reads 0b', (ended.out, ended.status) == (b'5 ""\n-3 "z"\n0 "b"\n0 "b2"\n31 ""\n15 ""\n', 0), ended.out, ended.said)
        ended = self.cc('--check', 'missing.c')
        self.is_so('a function that is missing: an error', ended.status == 1 and 'missing.c:3:' in ended.said and "'lost'" in ended.said, ended.status, ended.said)
        ended = self.cc('--check', '--missing-trap', 'missing.c')
        self.is_so('--missing-trap: not where it is not reached', ended.status == 0 and ended.out == b'kept\n', ended.status, ended.said)
        ended = self.cc('--check', '--missing-trap', '--arg', 'x', 'missing.c')
        self.is_so('--missing-trap: a trap at its place where it is reached', ended.status == 3 and 'end: trap abort' in ended.said and 'missing.c:3:' in ended.said, ended.status, ended.said)
        ended = self.cc('kept.c', '-o', 'no/such/folder.ll')
        self.is_so('a text that can\'t be written: told, a status', ended.status not in (0, None) and ended.said, ended.status, ended.said)
        ended = self.cc('-DNAME=1', '-c', 'kept.c')
        self.is_so('-c without -o writes kept.o', ended.status == 0 and os.path.exists(f'{self.folder}/kept.o'), ended.said)
        ended = self.cc('kept.o', '-o', 'kept.ll')
        again = self.cc('kept.c', '-o', 'again.ll')
        self.is_so('a text by -c and one at once are the same but for the name of the file', ended.status == again.status == 0 and
                   open(f'{self.folder}/kept.ll').read().replace('kept.ll', '') == open(f'{self.folder}/again.ll').read().replace('again.ll', ''))

    def waiting(self):
        """Threads that wait for each other, by a schedule that the user needn't name."""
        for name, flags, out in (('mutex', [], b'3\n'), ('condition', ['-DCOUNT=3'], b'0\n'), ('condition', ['-DCOUNT=20'], b'0\n'), ('condition', ['-DCOUNT=63'], b'0\n'),
                                 ('semaphores', ['-DFIRST=4'], b'much\nmuch\n')):
            ended = self.cc('--check', *flags, f'{name}.c')
            checked = cc_run.Checked(ended)
            self.is_so(f'--check of threads that wait, {" ".join([name] + flags)}: clean', (ended.status, ended.out, checked.verdict) == (0, out, 'clean'), ended.status, ended.out, ended.said)
        ended = self.cc('--run', 'mutex.c')
        self.is_so('--run of threads that wait', (ended.status, ended.out) == (0, b'3\n'), ended.status, ended.out, ended.said)
        ended = self.cc('--check', '-DFIRST=3', 'semaphores.c')
        self.is_so('--check of threads that wait, with a use: its report', ended.status == 77 and ended.out == b'much\n' and cc_run.Checked(ended).first[1] == cc_run.Place('semaphores.c', 26, 9),
                   ended.status, ended.out, ended.said)
        for own in (['--schedule', '00'], ['--schedule=00']):
            ended = self.cc('--check', 'mutex.c', '--', '--steps', '100000', *own)
            self.is_so(f'--check FILE -- {" ".join(own)}: the user\'s own schedule', ended.status == 4 and 'end: spent' in ended.said, ended.status, ended.said)
        for asked in (['--schedules', '3'], ['--schedules=3']):
            ended = self.cc('--check', 'mutex.c', '--', '--steps', '100000', *asked)
            self.is_so(f'--check FILE -- {" ".join(asked)}: schedules that are tried, no other one', 'schedules: 3, more' in ended.said, ended.status, ended.said)
        ended = self.cc('--explain', 'mutex.c')
        self.is_so('--explain of threads: refused by msan, which has no schedule there', ended.status == 5 and 'refused 18: threads' in ended.said, ended.status, ended.said)

    def pointers(self):
        """Steps that a call through a pointer takes, for functions of one type."""
        for count in (1, 10, 200):
            text = 'static int (*volatile f)(int);\n' + ''.join(f'static int f{k}(int n) {{ return n + {k}; }}\n' for k in range(count))
            text += 'static int (*const all[])(int) = {' + ', '.join(f'f{k}' for k in range(count)) + '};\n'
            call = 'int main(void) { int n = 0; for (int k = 0; k < 1000; k++) { f = all[%s]; n = %s; } return n != %d; }\n'
            total = sum(k % count for k in range(1000))
            with open(f'{self.folder}/through.c', 'w') as out:
                out.write(text + call % (f'k % {count}', 'f(n)', total))
            with open(f'{self.folder}/direct.c', 'w') as out:
                out.write(text + call % (f'k % {count}', f'f{count - 1}(n)', (count - 1) * 1000))
            taken = []
            for name in ('through', 'direct'):
                self.cc(f'{name}.c', '-o', f'{name}.ll')
                taken.append(self.steps(f'{self.folder}/{name}.ll'))
            each = (taken[0] - taken[1]) / 1000
            self.is_so(f'a call through a pointer among {count} functions of its type: {each:.1f} steps more than a direct one', 0 < each < 60, taken)

    def steps(self, text):
        """The least number of steps with which a run ends."""
        low, high = 0, 10000000
        while low + 1 < high:
            middle = (low + high) // 2
            ended = cc_run.run([cc_run.msan, 'run', '--steps', str(middle), text])
            low, high = (middle, high) if ended.status == 4 else (low, middle)
        return high


def main():
    checks = Checks(sys.argv[1])
    checks.check_word()
    checks.makefile()
    checks.words()
    checks.waiting()
    checks.pointers()
    return checks.table.end()


if __name__ == '__main__':
    sys.exit(main())
