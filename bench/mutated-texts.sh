#!/usr/bin/env bash
# Cuts and changes texts by chance, and runs `msan check`, `run`, `instrument` and `corpus` on each, with at most 20 seconds of
# processor time and 2 GB. Each text must be refused by its number, with nothing on the output, or run to an end. The three commands
# that read a plain text must say the same of it; what `instrument` writes must run as `check` says; and where `check` reports
# nothing the text itself must run to the same end, where it calls it clean also with other unset bytes.
#
# The texts are those of examples/, the modules of the tests, one that `msan gen` writes, and what `msan instrument` writes of them.
# `mutated-texts.sh TEXTS SEED` makes 10000 from the seed 1 where nothing else is said. While these texts stay the same, so does text
# number K of a seed: `mutated-texts.sh 1 SEED K` makes it again, and prints it with its answers.
# Needs python3 and prlimit, and the program as `rt run` built it (crates/msan/out/msan). Outside the gate.
source "$(dirname "$0")/frame.sh"

program=${MSAN:-$top/crates/msan/out/msan}
[ -x "$program" ] || { echo "build it first: (cd crates/msan && rt run -- run ../../examples/stored.ll)" >&2; exit 1; }

ulimit -c 0

python3 - "$top" "$work" "$program" "${1:-10000}" "${2:-1}" "${3:-}" <<'PYTHON'
import collections, concurrent.futures, glob, os, random, re, subprocess, sys

top, work, program = sys.argv[1:4]
count, seed = int(sys.argv[4]), int(sys.argv[5])
BOUNDED = ["prlimit", "--cpu=20", "--as=2000000000"]
TOKEN = re.compile(rb'[@%!#]?"[^"]*"|[@%!#]?[-$._A-Za-z0-9]+:?|\s+|.', re.S)
NUMBER = re.compile(rb"-?[0-9]+")
REFUSED = re.compile(rb"refused ([1-9]|1[0-7]): [^\n]*\n")
SAID = re.compile(
    rb"(?P<reports>(?:report \d+: [^\n]* at site \d+ in [^\n]*, part \d+, bits 0x[0-9a-f]+ of i\d+\n(?:  origin \d+: [^\n]*\n)+)*)"
    rb"(?P<end>end: (?:(?P<exit>exit \d+)|(?P<trap>trap [a-z-]+ at site \d+ in [^\n]*)|(?P<spent>spent)|(?P<reported>reported))\n)"
    rb"reports: \d+\nblind: \d+\n(?P<verdict>verdict: (?:clean|unsure|poisoned)\n)?"
)
INTS = b"i1 i7 i8 i16 i24 i32 i33 i63 i64".split()
BINARY = b"add sub mul udiv sdiv urem srem shl lshr ashr and or xor".split()
CASTS = b"trunc zext sext ptrtoint inttoptr bitcast".split()
FLAGS = b"nuw nsw exact disjoint nneg samesign".split()
PREDICATES = b"eq ne ugt uge ult ule sgt sge slt sle".split()
CONSTANTS = b"undef poison null true false".split()
KINDS = {word: kind for kind in (INTS, BINARY, CASTS, FLAGS, PREDICATES, CONSTANTS) for word in kind}
NUMBERS = b"""0 1 -1 2 7 8 31 32 63 64 65 255 256 1023 1024 2147483647 2147483648 4294967295 4294967296 9223372036854775807
    9223372036854775808 -9223372036854775808 -9223372036854775809 18446744073709551615 18446744073709551616 67108864 67108865
    16777216 123145302310912 124244813938688 125344325566464 114349209288704""".split()
OTHERS = b"""define declare global constant type i0 i65 ptr void label ret br switch phi select freeze alloca load store getelementptr
    inbounds call tail icmp to x align unreachable zeroinitializer attributes distinct target source_filename fadd float volatile
    atomic metadata opaque main @main @malloc @free @realloc @calloc @memcpy @memset @memcmp @strlen @puts @putchar @getchar @read
    @write @exit @printf @__msan_check @__msan_param_tls %__msan.1 !nosanitize !0 !{} #0 %0 %1 %2 1: 2: ( ) [ ] { } < > , = * ! ...
    ; " c"a\\00" """.split()
WORDS = list(KINDS) + NUMBERS + OTHERS


def call(words, text, folder):
    """What the program says of a text: its status, which is below 0 where a signal ends it, the output and the standard error."""
    with open(folder + "/f", "wb") as file:
        file.write(text)
    done = subprocess.run(BOUNDED + [program] + words, cwd=folder, stdin=subprocess.DEVNULL, capture_output=True, timeout=1000)
    return done.returncode, done.stdout, done.stderr


def instrumented(number, text):
    folder = "%s/source%d" % (work, number)
    os.mkdir(folder)
    return call(["instrument", "f"], text, folder)


def modules_of_tests():
    """The strings of the tests' sources that define a function."""
    for path in sorted(glob.glob(top + "/crates/*_tests/src/*.rt")):
        with open(path) as file:
            source = file.read()
        for found in re.findall(r'"((?:[^"\\]|\\.)*)"', source, re.S):
            text = re.sub(r"\\(.)", lambda m: {"n": "\n", "t": "\t", "r": "\r"}.get(m[1], m[1]), found)
            if "define " in text and len(text) < 1 << 16:
                yield text.encode()


def sources(pool):
    """The texts that are plain and valid, what is written of them, and the others."""
    texts = [open(path, "rb").read() for path in sorted(glob.glob(top + "/examples/*.ll"))] + sorted(set(modules_of_tests()))
    texts.append(call("gen --seed 7 --functions 12".split(), b"", work)[1])
    answers = list(pool.map(instrumented, range(len(texts)), texts))
    plain = [text for text, (status, _, _) in zip(texts, answers) if status == 0]
    return plain, [out for status, out, _ in answers if status == 0], [text for text in texts if text not in set(plain)]


# Changes of a text: by bytes, by tokens and lines, and by what they mean.


def place(rng, items):
    return rng.randrange(len(items) + 1)


def piece(rng, items):
    begin = place(rng, items)
    return begin, min(len(items), begin + int(rng.expovariate(1 / 8)) + 1)


def cut(rng, text, texts):
    return text[:place(rng, text)]


def cut_in_front(rng, text, texts):
    return text[place(rng, text):]


def cut_out(rng, text, texts):
    begin, end = piece(rng, text)
    return text[:begin] + text[end:]


def one_byte(rng, text, texts):
    at = place(rng, text)
    return text[:at] + bytes([rng.randrange(256)]) + text[at + rng.randrange(2):]


def one_bit(rng, text, texts):
    at = place(rng, text)
    return text[:at] + bytes(byte ^ 1 << rng.randrange(8) for byte in text[at:at + 1]) + text[at + 1:]


def other_token(rng, text, texts):
    tokens = TOKEN.findall(text)
    if tokens:
        tokens[rng.randrange(len(tokens))] = rng.choice(WORDS)
    return b"".join(tokens)


def token_of_its_own(rng, text, texts):
    tokens = TOKEN.findall(text)
    shown = [at for at, token in enumerate(tokens) if token.strip()]
    if shown:
        tokens[rng.choice(shown)] = tokens[rng.choice(shown)]
    return b"".join(tokens)


def many_times(rng, text, texts):
    tokens = TOKEN.findall(text)
    begin, end = piece(rng, tokens)
    tokens[end:end] = tokens[begin:end] * rng.choice([1, 1, 2, 3, 10, 40, 110, 2000])
    return b"".join(tokens)


def line_elsewhere(rng, text, texts):
    lines = text.splitlines(True) or [b""]
    line = lines.pop(rng.randrange(len(lines)))
    at = place(rng, lines)
    lines[at:at] = [line] * rng.randrange(3)
    return b"".join(lines)


def line_of_another(rng, text, texts):
    lines, others = text.splitlines(True), rng.choice(texts).splitlines(True)
    at = place(rng, lines)
    lines[at:at] = [rng.choice(others)]
    return b"".join(lines)


def joined(rng, text, texts):
    other = rng.choice(texts)
    return text[:place(rng, text)] + other[place(rng, other):]


def token_of_its_kind(rng, text, texts):
    tokens = TOKEN.findall(text)
    places = [at for at, token in enumerate(tokens) if token in KINDS or token[:1] == b"%" or NUMBER.fullmatch(token)]
    for at in rng.sample(places, min(len(places), rng.choice([1, 1, 2]))):
        if tokens[at] in KINDS:
            tokens[at] = rng.choice(KINDS[tokens[at]])
        elif tokens[at][:1] == b"%":
            tokens[at] = rng.choice([token for token in tokens if token[:1] == b"%"] + [b"undef"])
        else:
            tokens[at] = rng.choice(NUMBERS + [b"undef"] * 8)
    return b"".join(tokens)


def value(rng, names):
    return rng.choice([b"undef", b"undef", rng.choice(NUMBERS[:6]), rng.choice(NUMBERS), rng.choice(names)])


def new_instruction(rng, text, texts):
    """Puts an instruction with a name of its own before a line of a function."""
    names = [token for token in TOKEN.findall(text) if token[:1] == b"%"] or [b"%0"]
    ty, a, b, pointer = rng.choice(INTS), value(rng, names), value(rng, names), rng.choice(names)
    instruction = rng.choice([
        b"%s %s %s, %s" % (rng.choice(BINARY), ty, a, b),
        b"%s %s %s %s, %s" % (rng.choice(BINARY), rng.choice(FLAGS), ty, a, b),
        b"icmp %s %s %s, %s" % (rng.choice(PREDICATES), ty, a, b),
        b"%s %s %s to %s" % (rng.choice(CASTS[:3]), ty, a, rng.choice(INTS)),
        b"inttoptr i64 %s to ptr" % a,
        b"ptrtoint ptr %s to i64" % pointer,
        b"select i1 undef, %s %s, %s %s" % (ty, a, ty, b),
        b"freeze %s %s" % (ty, a),
        b"alloca %s, i8 %s" % (ty, rng.choice([b"0", b"1", b"5", b"-1"])),
        b"load %s, ptr %s" % (ty, pointer),
        b"getelementptr %s, ptr %s, %s %s" % (ty, pointer, rng.choice(INTS), a),
    ])
    line = b"  %%new%d = %s\n" % (rng.randrange(1 << 30), instruction)
    if rng.randrange(5) == 0:
        line = b"  store %s %s, ptr %s\n" % (ty, a, pointer)
    at = rng.choice([found.end() for found in re.finditer(rb"\) \{ |\n(?=  )", text)] or [0])
    return text[:at] + line + text[at:]


BY_BYTES = [cut, cut_in_front, cut_out, one_byte, one_bit]
BY_TOKENS = [other_token, token_of_its_own, many_times, line_elsewhere, line_of_another, joined]
BY_MEANING = [token_of_its_kind, new_instruction]


def text_of(rng, number):
    texts = rng.choice([PLAIN, PLAIN, PLAIN, WRITTEN, REFUSED_TEXTS])
    text = rng.choice(texts)
    if number % 5 == 0:
        return cut(rng, text, texts)
    changes = rng.choice([BY_BYTES, BY_TOKENS, BY_MEANING, BY_MEANING, BY_MEANING])
    for _ in range(rng.choice([1, 1, 1, 2, 4])):
        text = rng.choice(changes)(rng, text, texts)[:1 << 19]
    return text


# What must hold of the answers.


def end_of(command, answer):
    """How a run ended by its lines on the standard error; None where they aren't those of a run with this status."""
    status, _, err = answer
    said = SAID.fullmatch(err)
    if not said or bool(said["verdict"]) != (command == "check") or (status == 77) != (said["reports"] != b""):
        return None
    wanted = {0: "exit", 3: "trap", 4: "spent", 77: "end"}
    return said if said[wanted[status]] else None


def fault_of_one(command, answer):
    status, out, err = answer
    if status not in (0, 3, 4, 5, 77):
        return "%s ended with %d" % (command, status)
    if status == 5:
        return None if REFUSED.fullmatch(err) and not out else command + " refused without its line"
    if command in ("check", "run") and not end_of(command, answer):
        return command + " did not say how it ended"


def fault_of_plain(check, run, instrument, corpus, written, other_fill):
    """What is wrong with the answers to a plain text."""
    said = end_of("check", check)
    if instrument[0] != 0 or instrument[2]:
        return "instrument did not write"
    if corpus != (check[0], b"input 1, %d bytes: a\n%s\n%s" % (len(check[1]), check[1], check[2]), b""):
        return "corpus does not say what check says"
    if written[:2] != check[:2] or written[2] + said["verdict"] != check[2]:
        return "what instrument writes does not run as check says"
    if not run[1].startswith(check[1]) or not said["reported"] and (run[1], end_of("run", run)["end"]) != (check[1], said["end"]):
        return "run does not print or end as check says"
    if b"clean" in said["verdict"] and (other_fill[1], end_of("run", other_fill)["end"]) != (check[1], said["end"]):
        return "what is clean depends on the fill"


def try_text(number):
    """The text, the answers to it by their commands, and what is wrong with them, or None."""
    rng = random.Random("%d %d" % (seed, number))
    text, folder = text_of(rng, number), "%s/%d" % (work, number)
    os.mkdir(folder)
    with open(folder + "/a", "wb") as file:
        file.write(bytes(rng.choice(b"\0A1\xff") for _ in range(rng.choice([0, 0, 1, 5]))))
    fills = rng.sample(["a5", "00", "ff", "01", "0102", "00ff7f80a5"], 2)
    options = ["--steps", "20000", "--reports", "%d" % rng.choice([1, 1, 3, 1000]), "--fill"]
    on_input = options + fills[:1] + ["--input", "a", "f"]
    answers = {
        "check": call(["check"] + on_input, text, folder),
        "run": call(["run"] + on_input, text, folder),
        "instrument": call(["instrument", "f"], text, folder),
        "corpus": call(["corpus"] + options + fills[:1] + ["f", "a"], text, folder),
    }
    faults = [fault_of_one(command, answer) for command, answer in answers.items()]
    if 5 in (answers["check"][0], answers["instrument"][0], answers["corpus"][0]):
        if not answers["check"] == answers["instrument"] == answers["corpus"]:
            faults.append("refused otherwise by another command")
    elif not any(faults):
        answers["run of what is written"] = call(["run"] + on_input, answers["instrument"][1], folder)
        answers["run with another fill"] = call(["run"] + options + fills[1:] + ["--input", "a", "f"], text, folder)
        faults += [fault_of_one("run", answers[command]) for command in list(answers)[4:]]
        faults.append(None if any(faults) else fault_of_plain(*answers.values()))
    os.remove(folder + "/f"), os.remove(folder + "/a"), os.rmdir(folder)
    return text, answers, next((fault for fault in faults if fault), None)


pool = concurrent.futures.ThreadPoolExecutor(os.cpu_count())
PLAIN, WRITTEN, REFUSED_TEXTS = sources(pool)
if sys.argv[6]:
    text, answers, fault = try_text(int(sys.argv[6]))
    sys.stdout.buffer.write(text)
    print("\n%s\nfault: %s" % (answers, fault))
    sys.exit(fault is not None)
print("from %d plain texts, %d that are instrumented, and %d others" % (len(PLAIN), len(WRITTEN), len(REFUSED_TEXTS)))
statuses, refusals, faults = collections.defaultdict(collections.Counter), collections.Counter(), 0
for number, (text, answers, fault) in enumerate(pool.map(try_text, range(count))):
    for command, (status, _, err) in answers.items():
        statuses[command][status] += 1
    refused = REFUSED.fullmatch(answers["run"][2]) or REFUSED.fullmatch(answers["check"][2])
    refusals[int(refused[1]) if refused else 0] += 1
    if fault:
        faults += 1
        print("text %d of seed %d, %d bytes: %s" % (number, seed, len(text), fault), flush=True)
for command, seen in statuses.items():
    print("%s: %s" % (command, ", ".join("%d times %s" % (times, status) for status, times in sorted(seen.items(), key=str))))
print("refusals: " + ", ".join("%d times %d" % (times, number) for number, times in sorted(refusals.items()) if number))
calls = sum(sum(seen.values()) for seen in statuses.values())
print("%d texts of seed %d, %d calls: %d faults" % (count, seed, calls, faults))
sys.exit(faults > 0)
PYTHON
