"""The forms of beside-llvm.sh: texts as LLVM's tools print them again. Each runs as before, or is refused as docs/MANUAL.md says."""
import collections
import glob
import os
import re

from beside import folder, in_parallel, linked, msan, must, report, rows, tool
from random_module import Module

RANDOM = 40  # modules of random_module.py
DRIVERS = ["strcpy", "strtok_r", "strtol", "isalpha", "memmem", "rand"]
PASSES = {
    "mem2reg": "mem2reg",
    "scalars": "sroa,instcombine<no-verify-fixpoint>,simplifycfg",
    "memory": "early-cse,gvn,memcpyopt,dse,sccp,adce",
    "loops": "function(mem2reg,loop-simplify,lcssa,loop(loop-rotate,indvars),loop-unroll)",
    "jumps": "mem2reg,jump-threading,tailcallelim,simplifycfg",
    "calls": "cgscc(inline,argpromotion),globalopt,globaldce,deadargelim",
    "attributes": "inferattrs,cgscc(function-attrs)",
    "slots": "reg2mem",
    "switches": "lower-switch",
    "other names": "metarenamer",
    "all named": "instnamer",
    "no symbols": "strip",
    "O1": "default<O1>",
    "O2": "default<O2>",
    "O3": "default<O3>",
    "Os": "default<Os>",
}
FLAGS = {
    "orders of uses": ["-preserve-ll-uselistorder", "-passes=verify"],
    "calls of llvm.dbg": ["-write-experimental-debuginfo=false", "-passes=verify"],
    "no debug information": ["-strip-debug", "-passes=verify"],
    "made debug information": ["-strip-debug", "-passes=debugify"],
}
OPTIMISED = {"O1", "O2", "O3", "Os", "scalars", "loops", "jumps", "memory", "calls"}
# What the manual says of a text that is refused: the message, what the place must hold, and the manual's words.
SENTENCES = [
    (r"4: syntax", r"= \w+( \w+)* <\d+ x ", "in a sum `4: syntax`"),
    (r"5: outside [a-z ]*(?= at)", "", None),  # its name is the manual's
    (r"14: external @llvm\.", "", "`14: external @llvm."),
    (r"14: external @", "", "another library function"),
]


def sentence(message, line, manual):
    """Whether the manual says that a line is refused with this message."""
    for pattern, held, words in SENTENCES:
        found = re.match(pattern, message)
        if found and re.search(held, line):
            return (words or f"`{found[0]}`") in manual
    return False


def line_at(path, message):
    """The line of a text that a refusal names, by its byte; for an external the first that calls it."""
    with open(path, "rb") as file:
        text = file.read()
    byte, name = re.search(r"byte (?:at )?(\d+)", message), re.search(r"external (@[\w.]+)", message)
    if byte:
        start = text.rfind(b"\n", 0, int(byte[1])) + 1
        return text[start:text.find(b"\n", int(byte[1]))].decode(errors="replace")
    return name[1] if name else ""


def forms_of(path, place):
    """The forms of a text: a name, and the call that made `form.ll`, which the next one makes anew."""
    for name, passes in PASSES.items():
        yield name, tool("opt", f"-passes={passes}", "-S", path, "-o", f"{place}/form.ll")
    for name, flags in FLAGS.items():
        yield name, tool("opt", *flags, "-S", path, "-o", f"{place}/form.ll")
    must(tool("llvm-as", path, "-o", f"{place}/module.bc"))
    yield "no names", tool("opt", "-discard-value-names", "-passes=verify", "-S", f"{place}/module.bc", "-o", f"{place}/form.ll")
    yield "llvm-dis", tool("llvm-dis", f"{place}/module.bc", "-o", f"{place}/form.ll")
    yield "llvm-link", tool("llvm-link", "-S", path, "library/libc.ll", "-o", f"{place}/form.ll")


def outcome_of(name, run, base, is_poisoned):
    """What became of the run of a form that was read."""
    if (run.out, run.last("end")) == (base.out, base.last("end")):
        return "runs as before"
    if is_poisoned:
        return "runs otherwise, being poisoned"
    if name in OPTIMISED and re.match(r"end: trap (nsw|nuw|exact|disjoint|nneg)", run.err):
        return "breaks a flag"
    return "differs"


def judged(make):
    """For each form of a text: its name, what became of it, and the refusal and its line, or what differs."""
    place = folder()
    path, form = make(place), f"{place}/form.ll"
    base, is_poisoned = msan("run", path), msan("check", path).last("verdict") == "poisoned"
    results = []
    for name, made in forms_of(path, place):
        must(made)
        run = msan("run", form)
        refused = re.match(r"refused (.*)", run.err)
        if refused:
            results.append((name, "refused", refused[1], line_at(form, refused[1])))
        else:
            results.append((name, outcome_of(name, run, base, is_poisoned), f"{base.out[:100]} {base.err}", f"{run.out[:100]} {run.err}"))
    return results


def written(place, text):
    path = f"{place}/module.ll"
    with open(path, "w") as file:
        file.write(text)
    return path


def texts():
    for path in sorted(glob.glob("examples/*.ll")):
        yield lambda place, path=path: os.path.abspath(path)
    for path, kind, function, _ in rows():
        if kind == "clean" and function in DRIVERS:
            yield lambda place, path=path, function=function: linked(path, f"clean_{function}", place)
    for seed in range(RANDOM):
        yield lambda place, seed=seed: written(place, Module(seed).text)


def main():
    with open("docs/MANUAL.md") as file:
        manual = file.read()
    counts, refusals, differences = collections.Counter(), collections.Counter(), []
    for name, outcome, message, line in sum(in_parallel(judged, list(texts())), []):
        counts[outcome] += 1
        if outcome == "differs":
            differences.append(f"{name}: {message}\n{line}")
        if outcome == "refused":
            refusals[re.sub(r" at token.*|(?<=external @)(?!llvm).*", "", message)] += 1
            if not sentence(message, line, manual):
                differences.append(f"{name}: refused {message}, of which the manual says nothing\n  {line[:300]}")
    for message, count in sorted(refusals.items()):
        print(f"refused {message}: {count}")
    report("forms: " + ", ".join(f"{outcome} {count}" for outcome, count in sorted(counts.items())), differences)


main()
