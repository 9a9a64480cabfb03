"""cc_schedules.py WORK FILE...: C programs with threads under many schedules, as their comments say.

Comments of the whole program: `// schedules: N`, `// steps: N`, and `// tried: K, all` or `// tried: more` of the program without a plant. How many there are was
counted from the rules of docs/MANUAL.md, "Threads": of two threads that are joined in turn 5, 19, 34 or 125 where they yield never, once each, once and twice, or twice
and three times; of three that don't yield 44. Marks of plants are those of cc_tests.py."""
import os
import re
import sys

import cc_run
from cc_run import Checked
from cc_tests import Program


def closing(said):
    """The lines on the schedules, by their names, and the text without them."""
    kept, told = [], {}
    for line in said.splitlines(True):
        found = re.match(r'(schedules|outcomes|schedule): (.*)\n', line)
        if found:
            told[found[1]] = found[2]
        else:
            kept.append(line)
    return told, ''.join(kept)


class Tried(Program):
    def __init__(self, path):
        super().__init__(path)
        heads = dict(re.findall(r'^// (schedules|tried): (.*)$', open(path).read(), re.M))
        self.most, self.tried = heads['schedules'], heads['tried']

    def text(self, work, flags):
        text = f'{work}/{self.name}{"".join(flags)}.ll'
        lowered = cc_run.lower(self.files, text, self.flags + flags)
        if lowered.status:
            raise SystemExit(f'{self.path}: {lowered.said}')
        return text

    def check(self, text, *options):
        steps = ['--steps', self.steps] if self.steps else []
        return cc_run.run([cc_run.msan, 'check', '--where', *steps, *options, text], seconds=600)

    def try_schedules(self, text):
        """What trying them says, and what is wrong with it by the number of workers."""
        one = self.check(text, '--schedules', self.most, '--workers', '1')
        four = self.check(text, '--schedules', self.most, '--workers', '4')
        same = (one.status, one.out, one.err) == (four.status, four.out, four.err)
        return one, [] if same else [f'four workers say otherwise: {four.status} {four.said}']


def unplanted(program, work):
    ended, wrong = program.try_schedules(program.text(work, []))
    told, _ = closing(ended.said)
    if Checked(ended).verdict != 'clean' or 'schedule' in told:
        wrong.append(f'not clean: {ended.status} {ended.said}')
    count, _, extent = told.get('schedules', ', ').partition(', ')
    if program.tried not in ('more' if extent == 'more' else '', f'{count}, {extent}'):
        wrong.append(f'tried {told}, wanted {program.tried}')
    return told, wrong


def planted(program, plant, work):
    text = program.text(work, ['-D' + plant.name])
    ended, wrong = program.try_schedules(text)
    told, kept = closing(ended.said)
    checked = Checked(ended)
    if ended.status != 77 or checked.first != (plant.kind, plant.place):
        wrong.append(f'wanted {plant.kind} at {plant.place}, got {ended.status} {ended.said}')
    elif plant.root and checked.reports[0].root.line != plant.root:
        wrong.append(f'wanted a root in line {plant.root}, got {checked.reports[0].root}')
    if 'schedule' in told:
        again = program.check(text, '--schedule', told['schedule'])
        if (again.status, again.out, again.said) != (ended.status, ended.out, kept):
            wrong.append(f'its schedule doesn\'t repeat it: {again.status} {again.said}')
        alone = program.check(text)
        told['by itself'] = 'found' if alone.status == 77 else 'not found'
    return told, wrong


def main(work, paths):
    table = cc_run.Table('program', 'schedules', 'outcomes', 'found by the schedule', 'without one')
    for path in paths:
        program = Tried(path)
        rows = [('', lambda: unplanted(program, work))]
        rows += [(' ' + name, lambda plant=plant: planted(program, plant, work)) for name, plant in program.plants.items()]
        for name, row in rows:
            told, wrong = row()
            table.row(not wrong, program.name + name, told.get('schedules', ''), told.get('outcomes', ''), told.get('schedule', ''), told.get('by itself', ''), why=wrong)
    return table.end()


if __name__ == '__main__':
    sys.exit(main(sys.argv[1], sys.argv[2:]))
