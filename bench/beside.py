"""What library.sh and the parts of beside-llvm.sh share. Each is called with PROGRAM RELEASE FOLDER, at the top of the repository."""
import glob
import os
import re
import subprocess
import sys
import tempfile
from concurrent.futures import ThreadPoolExecutor

program, release, work = sys.argv[1:4]
LIBRARY = "library/libc.ll"
C_FLAGS = ("-O1 -g -U__OPTIMIZE__ -fwrapv -fno-builtin -fno-discard-value-names -Xclang -disable-llvm-passes -fno-pie "
           "-Wno-unused-function").split()
ROW = re.compile(r"^(CLEAN|POISONED)\((\w+)\) \{(.*?)^\}", re.M | re.S)


class Done:
    """A command that has run: what it printed, and its status; 128 and more after a signal, as in a shell."""

    def __init__(self, *command, stdin=b"", seconds=120):
        try:
            done = subprocess.run(command, input=stdin, capture_output=True, timeout=seconds)
            self.out, self.err = done.stdout, done.stderr.decode(errors="replace")
            self.status = done.returncode if done.returncode >= 0 else 128 - done.returncode
        except subprocess.TimeoutExpired:
            self.out, self.err, self.status = b"", f"{command[0]}: no end in {seconds} s", 124

    def last(self, name):
        """What follows `name: ` at the start of a line of standard error."""
        found = re.findall(rf"^{name}: (.*)$", self.err, re.M)
        return found[-1] if found else ""


def msan(*words, **options):
    return Done(program, *words, **options)


def tool(name, *words, **options):
    return Done(f"{name}-{release}", *words, **options)


def must(done):
    if done.status != 0:
        sys.exit(done.err)
    return done


def folder():
    return tempfile.mkdtemp(dir=work)


def rows():
    """The file, the kind, the function and the body of each row of library/rows."""
    for path in sorted(glob.glob("library/rows/*.c")):
        with open(path) as file:
            for kind, function, body in ROW.findall(file.read()):
                yield path, kind.lower(), function, body


def linked(path, row, place, *flags):
    """The text of a row, linked with the library."""
    must(tool("clang", *C_FLAGS, f"-DROW={row}", "-S", "-emit-llvm", path, "-o", f"{place}/row.ll"))
    must(tool("llvm-link", "-S", *flags, f"{place}/row.ll", LIBRARY, "-o", f"{place}/{row}.ll"))
    return f"{place}/{row}.ll"


def in_parallel(call, items):
    """The results of the calls, in the items' order."""
    with ThreadPoolExecutor(os.cpu_count()) as pool:
        return list(pool.map(call, items))


def report(what, differences):
    """Prints the differences, and ends with the status that they give."""
    for difference in differences:
        print(difference)
    print(f"{what}; {len(differences)} differences")
    sys.exit(1 if differences else 0)
