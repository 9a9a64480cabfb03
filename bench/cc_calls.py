"""cc_calls.py WORK FILE...: the calls that stand at a report, beside those of clang's MemorySanitizer and of Memcheck.

Comments of a program: `// calls: INNERMOST < .. < OUTERMOST`, worked out by hand: the functions of the program and of the C library that stand at its first
report. Whether a function of the library checks what it reads or calls another one is the library's own affair, so names of it count that the comment names."""
import concurrent.futures
import os
import re
import sys

import cc_run


# Names that Memcheck prints: glibc's qsort jumps to qsort_r, so it has no frame, and valgrind's memcmp has two names.
other_names = {'qsort_r': 'qsort', 'bcmp': 'memcmp'}


def wanted_calls(path):
    return re.search(r'^// calls: (.*)$', open(path).read(), re.M)[1].split(' < ')


def ours(path, name, work):
    """The function in which the first report is, an external function that found the use before it, and those called from."""
    text = f'{work}/{name}.ll'
    lowered = cc_run.lower([path], text)
    if lowered.status:
        raise SystemExit(f'{path}: {lowered.said}')
    said = cc_run.run([cc_run.msan, 'check', '--where', '--calls', text]).said
    calls, lines = [], iter(said.splitlines())
    for line in lines:
        if found := re.match(r'report 1: .* in @(\w+)', line):
            external = re.match(r'    \S+\.ll:\d+: .*call .*@(\w+)\(', next(lines))
            calls = ([external[1]] if external else []) + [found[1]]
        elif line.startswith('report ') or line.startswith('end: '):
            break
        elif found := re.match(r'  (?:called|started) at site \d+ in @(\w+)', line):
            calls.append(found[1])
    return calls, said


def memory_sanitizer(path, name, work):
    """An argument isn't checked where it is passed, as it isn't here. The function of the library that found the use is told by a line of its own."""
    program = f'{work}/{name}.msan'
    built = cc_run.build([path], program, cc_run.memory_sanitizer + ['-fno-builtin', '-fno-sanitize-memory-param-retval'])
    if built.status:
        raise SystemExit(f'{path}: {built.said}')
    said = cc_run.run([program]).said
    calls = re.findall(r'^Uninitialized bytes in (\w+) at', said, re.M)[:1]
    found_by = len(calls)
    for line in said.splitlines():
        found = re.match(r'    #(\d+) 0x\w+ in (\w+)', line)
        if found and len(calls) > found_by and found[1] == '0':
            break
        if found:
            calls.append(found[2])
    return calls, said


def memcheck(path, name, work):
    program = f'{work}/{name}.native'
    built = cc_run.build([path], program, ['-fno-builtin'])
    if built.status:
        raise SystemExit(f'{path}: {built.said}')
    said = cc_run.run(['valgrind', '-q', '--track-origins=yes', program]).said
    calls = []
    for line in said.splitlines():
        if found := re.match(r'==\d+== +(at|by) 0x\w+: (\w+)', line):
            if found[1] == 'at' and calls:
                break
            calls.append(other_names.get(found[2], found[2]))
    return calls, said


def compared(path, work):
    name, wanted = os.path.basename(path)[:-2], wanted_calls(path)
    told, wrong = [], []
    for tool in (ours, memory_sanitizer, memcheck):
        calls, said = tool(path, name, work)
        known = [call for call in calls if call in wanted]
        told.append(' < '.join(known))
        if known != wanted:
            wrong.append(f'{tool.__name__}: {" < ".join(calls)}\n{said}')
    return name, wanted, told, wrong


def main(work, paths):
    status = 0
    with concurrent.futures.ThreadPoolExecutor(os.cpu_count()) as pool:
        for name, wanted, told, wrong in pool.map(lambda path: compared(path, work), paths):
            print(f'{name}: {" < ".join(wanted)}: {"the same three times" if not wrong else "; ".join(told)}')
            for text in wrong:
                status = 1
                print(f'{name}: {text}', file=sys.stderr)
    return status


if __name__ == '__main__':
    sys.exit(main(sys.argv[1], sys.argv[2:]))
