"""The texts of beside-llvm.sh: `msan run`, `check` and `instrument` beside `lli`, `llvm-as` and `opt -passes=verify`."""
import glob
import os
import sys

from beside import Done, folder, in_parallel, linked, msan, must, report, rows, tool
from random_module import Module

GENERATED = 500  # modules of `msan gen`
modules = int(sys.argv[4])  # modules of random_module.py


def exit_code(done):
    """The exit code of a run, or how it ended instead."""
    end = done.last("end")
    return int(end.removeprefix("exit ")) % 256 if end.startswith("exit ") else end


def differences_of_instrumented(text, run, place):
    """What is wrong with the text that `msan instrument` writes of one."""
    instrumented = msan("instrument", text)
    if instrumented.status != 0:
        return [f"instrument: {instrumented.err}"]
    path = f"{place}/instrumented.ll"
    with open(path, "wb") as file:
        file.write(instrumented.out)
    found = [done.err for done in (tool("llvm-as", path, "-o", "/dev/null"), tool("opt", "-passes=verify", "-disable-output", path))
             if done.status != 0]
    again = msan("run", "--reports", "1000", path)
    if (again.out, again.last("end")) != (run.out, run.last("end")):
        found.append(f"the instrumented text: {again.err}")
    return found


def differences_of(text, place, lli_flags):
    """What is different for a text; "poisoned" where it uses uninitialised bytes, which LLVM's interpreter gives other values."""
    run, check = msan("run", text), msan("check", text)
    if run.last("refused 1?[0-9]"):
        return [run.err]
    found = differences_of_instrumented(text, run, place)
    if check.last("verdict") == "poisoned":
        return found or ["poisoned"]
    if (check.out, check.last("end"), check.last("verdict")) != (run.out, run.last("end"), "clean"):
        found.append(f"check: {check.err}run: {run.err}")
    lli = tool("lli", *lli_flags, text)
    if (lli.out, lli.status) != (run.out, exit_code(run)):
        found.append(f"lli: {lli.out[:200]} status {lli.status} {lli.err}\nrun: {run.out[:200]} {run.err}")
    return found


def judged(item):
    """The name of a text, which a call makes in a folder of its own, and its differences."""
    name, make, lli_flags = item
    place = folder()
    found = differences_of(make(place), place, lli_flags)
    if found in ([], ["poisoned"]):
        Done("rm", "-r", place)
    return name, found


def written(place, text):
    path = f"{place}/module.ll"
    with open(path, "wb") as file:
        file.write(text)
    return path


def generated(seed):
    return lambda place: written(place, must(msan("gen", "--seed", str(seed), "--functions", str(seed % 9 + 1))).out)


def texts():
    """The name of each text, a call that makes it, and the flags of `lli`: the rows print by printf and by puts, which its interpreter
    buffers apart."""
    interpreted = ["--force-interpreter"]
    for path in sorted(glob.glob("examples/*.ll")):
        yield path, lambda place, path=path: os.path.abspath(path), interpreted
    for path, kind, function, _ in rows():
        if kind == "clean" and function != "__assert_fail":  # which ends as `abort`
            yield function, lambda place, path=path, function=function: linked(path, f"clean_{function}", place), []
    for seed in range(modules):
        yield f"random_module.py {seed}", lambda place, seed=seed: written(place, Module(seed).text.encode()), interpreted
    for seed in range(GENERATED):
        yield f"msan gen --seed {seed} --functions {seed % 9 + 1}", generated(seed), interpreted


results = in_parallel(judged, list(texts()))
poisoned = [name for name, found in results if found == ["poisoned"] and name.startswith("examples/")]
differences = [f"{name}: " + "\n".join(found) for name, found in results if found and name not in poisoned]
print("not compared with lli, since they are poisoned: " + ", ".join(poisoned))
report(f"texts: {len(results)}, {modules} of them by random_module.py and {GENERATED} by msan gen", differences)
