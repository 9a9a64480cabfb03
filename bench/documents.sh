#!/usr/bin/env bash
# Checks the documents against the program and the tree:
#
# - runs the commands in the fenced blocks of README.md, docs/MANUAL.md and docs/CC.md, in a folder for each document, and compares
#   what they print with what is shown. A file that `cat` shows before it exists is created from what is shown. Commands with `rt` prove
#   everything, and `make` builds, so only their paths are checked
# - runs a small program for each row of MANUAL's two tables of refusals, and for some flags of its command; and commands that
#   are wrong
# - looks for each path, file, crate, function, clause and section that the documents and the forms for issues name
# - counts words: CONTRIBUTING.md has at most 2500, and all other documents but docs/CC.md together at most 14000
#
# Usage: documents.sh [PROGRAM], by default crates/msan/out/msan as `rt ci` builds it. The status is 1 if anything is wrong.
# Needs python3, awk, clang and llvm-link of release 19, or of $RELEASE, and msan-cc as `make -C cc` builds it. Outside the gate.
source "$(dirname "$0")/frame.sh"

program=$(realpath -m "${1:-$top/crates/msan/out/msan}")
[ -x "$program" ] || { echo "build it first: rt ci" >&2; exit 1; }
release=${RELEASE:-19}

mkdir "$work/bin"
ln -s "$program" "$work/bin/msan"
ln -s "$(command -v "clang-$release")" "$work/bin/clang"
ln -s "$(command -v "llvm-link-$release")" "$work/bin/llvm-link-19"
ln -s "$top/cc/msan-cc" "$work/bin/msan-cc"
PATH=$work/bin:$PATH
export MSAN=$program

python3 - "$top" "$work" <<'PYTHON'
import glob, os, re, subprocess, sys

top, work = sys.argv[1:3]
TRANSCRIPTS = ["README.md", "docs/MANUAL.md", "docs/CC.md"]
DOCUMENTS = ["*.md", "docs/*.md", "examples/*.md"]
# A changelog names what was, and decisions what was weighed and left.
NOT_NAMING = {"CHANGELOG.md", "docs/DECISIONS.md"}
FORMS = ".github/ISSUE_TEMPLATE/*.yml"
MOST_WORDS = {"CONTRIBUTING.md": 2500}
MOST_OF_OTHERS = 14000
NOT_COUNTED = {"docs/CC.md"}
# A block; those with a language are shown and not run.
FENCE = re.compile(r"^```(\w*)\n(.*?)^```$", re.M | re.S)
faults = []


def fault(document, text):
    faults.append(text)
    print(f"{document}: {text}")


def read(name):
    with open(os.path.join(top, name)) as file:
        return file.read()


# ---- commands and transcripts

def commands_of(block):
    """The commands of a block with the lines that stand below each."""
    commands = []
    for line in block.splitlines():
        if line.startswith("$ "):
            commands.append((line[2:], []))
        elif commands:
            commands[-1][1].append(line)
    return commands


def run(command, folder, status):
    """What a command prints, and its status, after one that ended with this status."""
    done = subprocess.run(["bash", "-c", f"(exit {status})\n{command}"], cwd=folder, stdin=subprocess.DEVNULL,
                          stdout=subprocess.PIPE, stderr=subprocess.STDOUT, timeout=600)
    return done.stdout.decode(errors="replace"), done.returncode


def check_transcript(document, block, folder):
    status = 0
    for command, shown in commands_of(block):
        words = command.split()
        if words[0] == "cat" and not os.path.exists(f"{folder}/{words[1]}"):
            with open(f"{folder}/{words[1]}", "w") as file:
                file.write("\n".join(shown) + "\n")
            continue
        printed, status = run(command, folder, status)
        if printed.splitlines() != shown:
            fault(document, f"$ {command}\n  shown:\n    " + "\n    ".join(shown) + "\n  printed:\n    " + printed.replace("\n", "\n    "))


def check_command(document, command, folder):
    """A command that is shown without what it prints."""
    if re.search(r"\b(?:rt|make)\b", command):
        below = re.search(r"(?:\bcd|\bmake -C) (\S+)", command)
        below = os.path.join(top, below[1] if below else "")
        for path in re.findall(r"(?:\.\./)+\S+?(?=[)\s]|$)", command) + [""]:
            if not os.path.exists(os.path.join(below, path)):
                fault(document, f"{command}: no {path or below}")
        return
    for name in re.findall(r"\b\w+\.c\b", command):
        with open(f"{folder}/{name}", "w") as file:
            file.write("int main(void) { return 0; }\n")
    printed, status = run(command, folder, 0)
    if status != 0:
        fault(document, f"{command}: status {status}, {printed}")


def check_commands(document):
    folder = f"{work}/{os.path.basename(document)}.folder"
    os.mkdir(folder)
    for name in "examples", "library":
        os.symlink(f"{top}/{name}", f"{folder}/{name}")
    count = 0
    for block in [block for language, block in FENCE.findall(read(document)) if not language]:
        if block.startswith("$ "):
            check_transcript(document, block, folder)
            count += len(commands_of(block))
        else:
            for line in block.splitlines():
                check_command(document, line.split("  #")[0].strip(), folder)
                count += 1
    print(f"{document}: {count} commands")
    return set(os.listdir(folder))


# ---- what isn't taken: a program, and the message that MANUAL has for it

C = {
    '#include <stdio.h>\nint main(void) { int n; scanf("%d", &n); return n; }': "5: outside function type",
    '#include <stdio.h>\nint main(void) { char b[9]; sprintf(b, "%d", 3); return 0; }': "4: syntax",
    "static int f(void) { return 0; }\nstatic int g(int (*p)(void)) { return p(); }\nint main(void) { return g(f); }": "5: outside indirect call",
    "void f(void (*)(void)) {}\nstatic void g(void) {}\nint main(void) { f(g); return 0; }": "11: type",
    "static int f(void) { return 0; }\nstruct { int k; int (*p)(void); } rows[] = {{1, f}};\nint main(void) { return rows[0].k; }":
        "11: type at site 0, operand 0",
    '#include <stdio.h>\nint main(void) { fputs("x", stderr); return 0; }': "5: outside external global",
    "int main(int argc, char **argv) { return argc; }": "13: no main",
    '#include <string.h>\nint main(void) { char b[9]; strcpy(b, "x"); return 0; }': "14: external @strcpy",
    "#include <ctype.h>\nint main(void) { return isdigit('3'); }": "14: external @__ctype_b_loc",
    "#include <errno.h>\nint main(void) { return errno; }": "14: external @__errno_location",
    "int f(void);\nint main(void) { return f(); }": "14: external @f",
    "extern int n;\nint main(void) { return n; }": "5: outside external global",
    "volatile int n;\nint main(void) { return n; }": "5: outside volatile",
    "double half(int n) { return n; }\nint main(void) { return 0; }": "5: outside floating point",
    "int main(void) { double d = 1.5; return 0; }": "1: bad byte",
    "int main(void) { unsigned __int128 n = 3; return 0; }": "5: outside wide integer",
    "typedef int four __attribute__((vector_size(16)));\nint main(void) { four v = {1}; return v[0]; }": "5: outside vector",
    "#include <assert.h>\nint main(void) { int n = 1; assert(n); return 0; }": "14: external @__assert_fail",
    "#include <stdarg.h>\nint f(int n, ...) { va_list v; va_start(v, n); return 0; }\nint main(void) { return 0; }": "5: outside variadic",
    "void f(int n, ...);\nint main(void) { f(1, 2); return 0; }": "5: outside function type",
    "static int f(int n, ...) { return n; }\nint main(void) { return f(1, 2); }": "4: syntax",
    "struct s { long x, y; };\nstatic struct s f(void) { struct s s = {1}; return s; }\nint main(void) { f(); return 0; }": "5: outside aggregate value",
    "int main(void) { int n; return __builtin_add_overflow(1, 2, &n); }": "5: outside aggregate value",
    "struct s { long x, y, z; };\nstatic void f(struct s s) {}\nint main(void) { struct s s = {1}; f(s); return 0; }": "5: outside by value",
    "int main(void) { int n = 4, a[n]; a[0] = 1; return 0; }": "14: external @llvm.stacksave.p0",
    "int a[4];\nint main(void) { int *p = a + 2; return p - a; }": "5: outside constant expression",
    "static void f(void) {}\n__attribute__((constructor)) static void g(void) {}\nint main(void) { f(); return 0; }": "11: type",
    "__attribute__((weak)) int f(void);\nint main(void) { return f ? 1 : 0; }": "11: type",
}
# What a flag of the command is for: a program, a change of the command, and what is printed without it and with it.
SUM = "int main(void) { int a[4] = {1, 2, 3}, sum, k; for (k = 0; k < 4; k++) sum += a[k] * 1000000000; return sum > 9; }"
LOOP = "int main(void) { int *p = 0; for (int k = 0; k < 2; k++) { int x; if (k == 0) x = 7; p = &x; } return *p; }"
BRANCH = "int puts(const char *);\nint main(void) { int wanted; if (wanted == 3) puts(\"three\"); return 0; }"
AHEAD = "__attribute__((noinline)) int f(int n, int a, int b) { if (n) return a + b; return 0; }\nint main(void) { return f(0, 2147483647, 1); }"
FLAGS = [
    (SUM, ("-fwrapv ", ""), "end: trap nsw.*verdict: unsure", "report 1: exit"),
    (LOOP, ("-O1 ", "-O0 "), "end: exit 7.*verdict: clean", "report 1: exit"),
    (BRANCH, ("-Xclang -disable-llvm-passes ", ""), "end: trap unreachable", "report 1: branch"),
    (AHEAD, ("-fwrapv -fno-discard-value-names -Xclang -disable-llvm-passes ", ""), "end: trap nsw", "end: exit 0"),
]
CURES = [
    "int a[4];\nint main(void) { int *p = a + 2, *start = a; return p - start - 2; }",
]
MAIN = "define i32 @main() {\n  %s\n}\n"
TEXTS = {
    "?": "1: bad byte",
    '"abc': "2: open string",
    ";\n" + "," * 1048577: "3: too many tokens",
    "define i32 @main() {": "4: syntax",
    MAIN % "%1 = fadd i32 1, 2": "5: outside floating point",
    "".join(f"@g{n} = global i8 0\n" for n in range(16385)): "6: limit globals",
    MAIN % "%2 = alloca i32": "7: numbering",
    MAIN % "%__msan.x = add i32 1, 2": "8: reserved",
    MAIN % "%a = add i32 1, 2\n  br label %a\na:\n  ret i32 0": "9: duplicate %a",
    MAIN % "ret i32 %9": "10: unknown %9",
    MAIN % "ret i64 0": "11: type",
    MAIN % "br label %0": "12: phi",
    "": "13: no main",
    "declare void @f()\n" + MAIN % "call void @f()\n  ret i32 0": "14: external @f",
    MAIN % "br i1 0, label %1, label %2\n1:\n  %x = add i32 1, 2\n  br label %2\n2:\n  ret i32 %x": "15: undefined at site 4, path 0 2",
    MAIN % "%1 = add <2 x i32> zeroinitializer, zeroinitializer": "4: syntax",
    MAIN % "%1 = freeze <2 x i32> zeroinitializer": "5: outside aggregate value",
    "@g = global [67108865 x i8] zeroinitializer\n" + MAIN % "ret i32 0": "17: size of @g",
}
OTHERS = [(MAIN % "ret i32 undef", "end: exit 2779096485\n")]
MARKED = MAIN % "%1 = alloca i32, !nosanitize !0\n  ret i32 0" + "!0 = !{}\n"

YIELDS = MAIN % "%1 = call i32 @sched_yield()\n  ret i32 %1" + "declare i32 @sched_yield()\n"


def message(text, command="check"):
    with open(f"{work}/text.ll", "w") as file:
        file.write(text)
    return run(f"msan {command} {work}/text.ll", work, 0)[0]


def compiled(source, command):
    with open(f"{work}/x.c", "w") as file:
        file.write(source + "\n")
    printed, status = run(f"{command} -w", work, 0)
    if status != 0:
        fault("docs/MANUAL.md", f"{source}\n  clang: {printed}")
    with open(f"{work}/x.ll") as file:
        return file.read()


def check_refusals():
    manual = read("docs/MANUAL.md")
    command = FENCE.search(manual)[2].strip()
    said = [(source, message(compiled(source, command)), told) for source, told in C.items()]
    said += [(text[:60], message(text), told) for text, told in TEXTS.items()]
    said.append((MARKED, message(MARKED, "run"), "16: mark"))
    said.append((YIELDS, message(YIELDS, "explain"), "18: threads"))
    for source, printed, told in said:
        if not printed.startswith("refused " + told):
            fault("docs/MANUAL.md", f"{source}\n  printed: {printed}  not: {told}")
        name = told.split()[-1]
        if f"`{told}" not in manual and not (name.startswith("@") and f"`{name}`" in manual):
            fault("docs/MANUAL.md", f"doesn't name {told}")
    for source in CURES:
        printed = message(compiled(source, command))
        if not printed.startswith("end: exit 0\n"):
            fault("docs/MANUAL.md", f"{source}\n  printed: {printed}")
    for text, printed in OTHERS:
        if printed not in message(text, "run"):
            fault("docs/MANUAL.md", f"{text}\n  not: {printed}")
    for source, change, without, given in FLAGS:
        for words, printed in (command, given), (command.replace(*change), without):
            if not re.match(printed, message(compiled(source, words)), re.S):
                fault("docs/MANUAL.md", f"{source}\n  {words}\n  not: {printed}")
    print(f"docs/MANUAL.md: {len(said)} refusals, {len(FLAGS)} flags")


# ---- commands by their words: how what they print begins, and their status

WORDS = {
    "": ("words: UnknownCommand at 0", 2),
    "fly": ("words: UnknownCommand at 0", 2),
    "check --seed 1 f": ("words: UnknownOption at 1", 2),
    "gen --run=x": ("words: UnknownOption at 1", 2),
    "check --steps 1 --steps 2 f": ("words: Repeated at 3", 2),
    "check --steps": ("words: MissingValue at 2", 2),
    "check": ("words: MissingFile at 1", 2),
    "corpus f": ("words: MissingFile at 2", 2),
    "explain --reports 2 f": ("words: UnknownOption at 1", 2),
    "explain nowhere.ll": ("file fault: nowhere.ll", 6),
    "gen --seed 1": ("words: MissingOption at 3", 2),
    "check --steps 01 f": ("words: BadNumber at 2", 2),
    "check --fill a f": ("words: BadHex at 2", 2),
    "run --schedule 0 f": ("words: BadHex at 2", 2),
    "check --schedules 5 --schedule 00 f": ("words: Excluded at 3", 2),
    "check --workers 5 f": ("words: MissingOption at 4", 2),
    "corpus --schedule 00 f f": ("words: UnknownOption at 1", 2),
    "check --steps=1000000001 f": ("words: OutOfRange at 1", 2),
    "run --reports 1001 f": ("words: OutOfRange at 2", 2),
    "check f g": ("words: Extra at 2", 2),
    "check -- --steps": ("file fault: --steps", 6),
    "check --input text.ll -": ("file fault: -", 6),
    "corpus nowhere.ll nofile": ("file fault: nowhere.ll", 6),
    "gen --seed 7 --functions 2 --run": ("functions: 3", 0),
    "help check": ("msan finds uses", 0),
    "version please": ("msan 0.2.0", 0),
}


def check_words():
    manual = read("docs/MANUAL.md")
    for words, (printed, status) in WORDS.items():
        found, ended = run(f"msan {words}", work, 0)
        if not found.lower().startswith(printed.lower()) or ended != status:
            fault("docs/MANUAL.md", f"msan {words}\n  printed: {found}  status: {ended}\n  not: {printed}, {status}")
        if printed.startswith("words: ") and f"`{printed.split()[1]}`" not in manual:
            fault("docs/MANUAL.md", f"doesn't name {printed}")
    print(f"docs/MANUAL.md: {len(WORDS)} commands by their words")


# ---- names

def sources(crate, modules):
    """The files of a crate's code, or those of the module that a path names."""
    files = glob.glob(f"{top}/crates/{crate}/src/**/*.rt", recursive=True)
    for module in modules:
        files = [f for f in files if f.endswith(f"/{module}.rt") or f"/{module}/" in f]
    return [read(f) for f in files]


def is_declared(crate, modules, name):
    declared = rf"\b(?:fn|struct|enum|trait|type|const|static|mod)\s+{name}\b|\bpub use [^;]*\b{name}\b"
    return any(re.search(declared, source) for source in sources(crate, modules))


def clauses(crate, modules, name):
    """The names of the clauses of a function: what stands between its name and its body."""
    found = set()
    for source in sources(crate, modules):
        for head in re.findall(rf"\bfn {name}\b(.*?)(?:^\s*\{{|\Z)", source, re.M | re.S):
            found |= set(re.findall(r"\bensures (\w+) \{", head))
    return found


def names_of(path):
    """The crate, the modules and the names of a path such as `ms_ir::{site_of, place_of}`; a type on the way is passed over."""
    parts = path.split("::")
    last = re.findall(r"\w+", parts[-1])
    return parts[0], [part for part in parts[1:-1] if part.islower()], last


def check_functions(document, prose):
    count = 0
    path = r"(ms_\w+(?:::\w+)*::(?:\w+|\{[^}]*\}))"
    for found in re.finditer(rf"`{path}`(?:\s+\(((?:`\w+`(?:,\s+)?)+)\))?", prose):
        crate, modules, names = names_of(found[1])
        for name in names:
            count += 1
            if not is_declared(crate, modules, name):
                fault(document, f"no {name} in {found[1]}")
            for clause in re.findall(r"\w+", found[2] or ""):
                count += 1
                if clause not in clauses(crate, modules, name):
                    fault(document, f"no clause {clause} of {name} in {found[1]}")
    return count


def exists(path, files, shown):
    if re.match(r"crates/\w+/out\b", path):
        return True
    if any(glob.glob(os.path.join(top, start, path)) for start in ("", "crates", "docs")):
        return True
    return "/" not in path and (path in shown or path in files)


def check_names(document, files, shown):
    prose = FENCE.sub("", read(document))
    words = {word.rstrip("./") for word in re.findall(r"(?<![\w/.@%$-])[\w*][\w*./-]*", prose)}
    paths = {word for word in words if re.search(r"\.(?:md|sh|py|c|rt|antt|ll|txt|edit)$", word) or re.match(r"(?:crates|docs|bench|examples|library|ms_\w+)/", word)}
    crates = set(re.findall(r"(?<![\w/%@:.])ms_\w+\*?", prose))
    for path in sorted(paths):
        # `x.c` and the like stand for any file
        if not re.fullmatch(r"[a-z]\.\w+", path) and not exists(path, files, shown):
            fault(document, f"no {path}")
    for crate in sorted(crates):
        if not glob.glob(f"{top}/crates/{crate}"):
            fault(document, f"no crate {crate}")
    functions = check_functions(document, prose)
    print(f"{document}: {len(paths)} paths, {len(crates)} crates, {functions} functions and clauses")


# ---- sections

def headings(document):
    """The sections of a document, by their titles."""
    return {title.strip() for title in re.findall(r"^#+ (.*)$", read(document), re.M)}


def check_sections(document):
    """Each section that is named as `docs/NAME.md, "Title"`."""
    named = re.findall(r"([\w/]+\.md),\s+\"([^\"]+)\"", read(document))
    for other, title in named:
        path = other if os.path.exists(os.path.join(top, other)) else f"docs/{other}"
        if not os.path.exists(os.path.join(top, path)):
            fault(document, f"no {other}")
        elif title.rstrip(",.") not in headings(path):
            fault(document, f"no section \"{title}\" in {other}")
    print(f"{document}: {len(named)} sections of documents")


# ---- words

def found(patterns):
    return sorted(name for names in patterns for name in glob.glob(names, root_dir=top, include_hidden=True))


def count_words():
    total = 0
    for document in found(DOCUMENTS):
        words = len(read(document).split())
        print(f"{words:6} {document}")
        most = MOST_WORDS.get(document)
        if most is None and document not in NOT_COUNTED:
            total += words
        elif most is not None and words > most:
            fault(document, f"{words} words, of at most {most}")
    print(f"{total:6} words of the documents that are counted together, of at most {MOST_OF_OTHERS}")
    if total > MOST_OF_OTHERS:
        fault("documents", f"{total} words")


files = {name for folder, _, names in os.walk(top) if not re.search(r"/(?:out|\.git)(?:/|$)", folder) for name in names}
shown = set()
for document in TRANSCRIPTS:
    shown |= check_commands(document)
check_refusals()
check_words()
for document in found(DOCUMENTS):
    if document not in NOT_NAMING:
        check_names(document, files, shown)
for document in found(DOCUMENTS + [FORMS]):
    check_sections(document)
count_words()
print(f"{len(faults)} faults")
sys.exit(1 if faults else 0)
PYTHON
