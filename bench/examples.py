"""The reports of examples.sh. Usage: examples.py PROGRAM FOLDER OTHER, at the top of the repository.

FOLDER has the texts by the manual's command, OTHER those of -O0. Each report and origin is compared with the last column of its row."""
import re
import subprocess
import sys

ROW = re.compile(r"^`(\w+)\.c`.*? \| (.*?) \| (.*?) \| (.*?) \| (.*)$", re.M)
REPORT = re.compile(r"report 1: (\S+) at site \d+ in @\w+, part (\d+), ")
CALL = re.compile(r"  called at site \d+ in @")
ORIGIN = re.compile(r"  origin \d+: (\w+) at site \d+ in @")


def in_source(lines, place):
    """The place in C of the site that a line names: the second of those below it."""
    below = [line.strip() for line in lines[place + 1 : place + 3]]
    return below[1] if len(below) == 2 and all(line.startswith("    ") for line in lines[place + 1 : place + 3]) else "nowhere"


def reported(program, text):
    """The use, its calls and the origins that `msan check --where --calls` reports, as the table has them."""
    done = subprocess.run([program, "check", "--where", "--calls", text], stdin=subprocess.DEVNULL, capture_output=True, text=True, timeout=60)
    lines = done.stderr.splitlines()
    found = REPORT.match(lines[0])
    if not found:
        return done.stderr, "", "none" if done.returncode == 0 else ""
    kind, part = found.groups()
    use = (f"{kind}, part {part}, " if part != "0" else f"{kind} ") + in_source(lines, 0)
    chain = [f"{origin[1]} {in_source(lines, place)}" for place, origin in enumerate(map(ORIGIN.match, lines)) if origin]
    calls = [in_source(lines, place) for place, line in enumerate(lines) if CALL.match(line)]
    return use, ", ".join(calls) or "in `main`", ", ".join(chain)


def main():
    program, folder, other = sys.argv[1:4]
    with open("examples/README.md") as file:
        rows = ROW.findall(file.read())
    faults = 0
    for name, use, called, origins, plainly in rows:
        plainly = origins if plainly == "same" else plainly.split(":")[0] if plainly.startswith("none") else plainly
        for text, expected in (f"{folder}/{name}.ll", origins), (f"{other}/{name}.ll", plainly):
            found, calls, chain = reported(program, text)
            if chain != expected or ((found, calls) != (use, called) and expected != "none"):
                faults += 1
                print(f"{text}\n  expected: {use} | {called} | {expected}\n  reported: {found} | {calls} | {chain}")
    print(f"{len(rows)} examples, {faults} faults")
    return 1 if faults or not rows else 0


sys.exit(main())
