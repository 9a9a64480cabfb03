"""The rows of library.sh. Usage: library.py PROGRAM RELEASE FOLDER, at the top of the repository."""
import re
import sys

from beside import LIBRARY, Done, folder, in_parallel, linked, msan, must, rows, tool

CLEAN_END = "reports: 0\nblind: 0\nverdict: clean\n"


def difference(row, expected, found):
    return [f"{row}\n  expected: {expected}\n  found:    {found}"]


def natively(path, row, place):
    """What clang and the C library of this machine make of a row."""
    must(tool("clang", "-O1", "-fno-builtin", "-w", f"-DROW={row}", path, "-o", f"{place}/native"))
    return Done(f"{place}/native")


def differences_of_clean(path, row, body):
    printed = "".join(f"{line}\n" for line in re.findall(r"// prints ?(.*)$", body, re.M))
    ends = re.search(r"// ends (.*)$", body, re.M)
    end = ends[1] if ends else "exit 0"
    place = folder()
    check = msan("check", linked(path, row, place, "--only-needed"))
    found = []
    if check.out.decode() != printed or not check.last("end").startswith(end) or not check.err.endswith(CLEAN_END):
        found += difference(row, printed + end, check.out.decode() + check.err)
    native = natively(path, row, place)
    if ends:  # a message on standard error, after the program's name
        agrees = native.err.endswith(printed) and native.status > 128
    else:
        agrees = native.out.decode() == printed and native.status == 0
    return found if agrees else found + difference(f"{row}, natively", printed, native.out.decode() + native.err)


def reported(text):
    """The first report of a text on standard error, as the comments of the rows say it."""
    found = re.match(r"report 1: (\S+) at site \d+ in @(\w+)", text)
    if not found:
        return text
    chain = [f"{found[1]} in {found[2]}"]
    for origin, function in re.findall(r"^  origin \d+: (\w+) at site \d+ in @(\w+)$", text, re.M):
        chain.append(f"stored in {function}" if origin == "stored" else origin)
    return ", ".join(chain)


def differences_of_poisoned(path, row, body):
    expected = re.search(r"// reports (.*)$", body, re.M)[1]
    check = msan("check", linked(path, row, folder(), "--only-needed"))
    if reported(check.err) == expected and check.status == 77:
        return []
    return difference(row, expected, reported(check.err))


def differences_of(row):
    path, kind, function, body = row
    judge = differences_of_clean if kind == "clean" else differences_of_poisoned
    return judge(path, f"{kind}_{function}", body)


def functions():
    with open(LIBRARY) as file:
        return set(re.findall(r"^define weak .*?@(\w+)\(", file.read(), re.M))


all_rows = list(rows())
clean = {function for _, kind, function, _ in all_rows if kind == "clean"}
found = sum(in_parallel(differences_of, all_rows), [])
for name in sorted(functions() ^ clean - {"all"}):
    found += difference(name, "a function with a clean row", "one of them only")
print("\n".join(found + [f"{len(functions())} functions: {len(clean)} clean rows, {len(all_rows) - len(clean)} poisoned rows, {len(found)} faults"]))
sys.exit(1 if found else 0)
