"""cc_errors.py WORK FILE...: programs that msan-cc refuses, with all causes at once, as their comments say; the status is 1 and no text is written.

- `// error "text": MESSAGE` at the end of a line: an error there, at the column of that text
- `// error line: MESSAGE`: an error at this line, without a column
- `// error: MESSAGE`: an error without a place
A message may go on after what the comment has."""
import os
import re
import sys

import cc_run


def expected(path):
    wanted = []
    for number, line in enumerate(open(path).read().split('\n'), 1):
        for mark, message in re.findall(r'// error( "[^"]*"| line)?: ((?:(?! // error).)*)', line):
            mark = mark.strip()
            column = line.index(mark[1:-1]) + 1 if mark.startswith('"') else 0
            wanted.append((number if mark else 0, column, message.strip()))
    return sorted(wanted)


def told(said, path):
    found = []
    for line in said.split('\n'):
        place = re.match(r'(.*?):(\d+):(?:(\d+):)? error: (.*)', line)
        if place and os.path.basename(place[1]) == os.path.basename(path):
            found.append((int(place[2]), int(place[3] or 0), place[4]))
        elif line.startswith('error: '):
            found.append((0, 0, line[7:]))
        elif ' error: ' in line:
            found.append((-1, 0, line))
    return found


def main():
    table = cc_run.Table('refused', 'errors')
    for path in sys.argv[2:]:
        text = f'{sys.argv[1]}/refused.ll'
        ended = cc_run.lower([path], text)
        wanted, got = expected(path), told(ended.said, path)
        wrong = [f'not told: {w}' for w in wanted if not any(g[:2] == w[:2] and g[2].startswith(w[2]) for g in got)]
        wrong += [f'told besides: {g}' for g in got if not any(g[:2] == w[:2] and g[2].startswith(w[2]) for w in wanted)]
        if ended.status != 1:
            wrong.append(f'status {ended.status}')
        if os.path.exists(text):
            wrong.append('a text is written')
            os.remove(text)
        if [g[:2] for g in got] != sorted(g[:2] for g in got):
            wrong.append('not sorted by place')
        table.row(not wrong, os.path.basename(path), len(got), why=wrong)
    return table.end()


if __name__ == '__main__':
    sys.exit(main())
