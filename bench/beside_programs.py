"""The programs of beside-llvm.sh: which of them `msan check`, clang's -fsanitize=memory and valgrind report."""
import os
import re

from beside import Done, folder, in_parallel, linked, msan, must, release, report, rows, tool
from places import places_of

EXAMPLES = [["local"], ["padding"], ["list"], ["buffer"], ["parser"], ["total", "total_read", "total_sum"], ["names"]]
SYMBOLIZER = f"/usr/lib/llvm-{release}/bin/llvm-symbolizer"

# Why a tool reports nothing where `msan check` does, or the other way round: an example or functions of rows, the tool, and the reason.
REASONS = [
    ("strcpy stpcpy strncpy stpncpy strcat strncat strdup", "clang", "its stand-ins copy the shadow; where the text ends depends on the bytes"),
    ("strtol strtoll strtoul strtoull atoi atol atoll", "clang", "its stand-ins don't look at the text's shadow"),
    ("strtok_r strsep", "clang", "it has no stand-ins, and doesn't see what the C library does"),
    ("memrchr", "clang", "its stand-in takes all bytes as read, though the last one decides (a false report)"),
    ("total", "valgrind", "a variable in a loop keeps its last round's value natively"),
]


def reason(name, tool_name):
    function = re.sub("^(clean|poisoned)_", "", name)
    return next((why for functions, whose, why in REASONS if function in functions.split() and whose == tool_name), None)


def native(sources, flags, place):
    must(tool("clang", "-gdwarf-4", "-O0", "-w", "-fno-builtin", *flags, *sources, "-o", f"{place}/native"))
    return f"{place}/native"


def place_in_c(done):
    """The first line of a sanitizer's stack that stands in a file of ours, as FILE:LINE:COLUMN."""
    found = re.search(r"#\d+ \S+ in \S+ \S*?([\w-]+\.c:\d+:\d+)", done.err)
    return found[1] if found else ""


def by_clang(sources, flags, place):
    done = Done("env", "MSAN_OPTIONS=exitcode=77", f"MSAN_SYMBOLIZER_PATH={SYMBOLIZER}", native(sources, ["-fsanitize=memory", *flags], place))
    return done.status == 77, place_in_c(done)


def by_valgrind(sources, flags, place):
    done = Done("valgrind", "-q", "--error-exitcode=77", native(sources, flags, place))
    return done.status == 77, ""


def by_msan(text):
    done = msan("check", text)
    found = re.match(r"report 1: \S+ at site (\d+)", done.err)
    return done.status == 77, places_of(text)[int(found[1])] if found else ""


def compared(item):
    """For a program: its name, whether each tool reports, and where the first report of clang and ours stands."""
    name, text, sources, flags = item
    place = folder()
    ours, clangs, valgrinds = by_msan(text(place)), by_clang(sources, flags, place), by_valgrind(sources, flags, place)
    return name, ours, clangs, valgrinds


def programs():
    for names in EXAMPLES:
        sources = [f"examples/{name}.c" for name in names]
        yield names[0], lambda place, name=names[0]: os.path.abspath(f"examples/{name}.ll"), sources, []
    for path, kind, function, _ in rows():
        if function != "__assert_fail":  # which ends as `abort`
            row = f"{kind}_{function}"
            yield row, lambda place, path=path, row=row: linked(path, row, place), [path], [f"-DROW={row}"]


results = in_parallel(compared, list(programs()))
differences, reasons = [], {}
for name, ours, clangs, valgrinds in results:
    for tool_name, theirs in ("clang", clangs), ("valgrind", valgrinds):
        if theirs[0] != ours[0]:
            why = reason(name, tool_name)
            if why:
                reasons.setdefault((tool_name, why), []).append(name)
            else:
                differences.append(f"{name}: msan {ours}, {tool_name} {theirs}")
for (tool_name, why), names in reasons.items():
    print(f"{len(names)} by {tool_name}: {why}")
both = [(ours[1], clangs[1]) for name, ours, clangs, _ in results if ours[0] and clangs[0] and not name.startswith("poisoned")]
print(f"examples that both report: {len(both)}, at the same place {sum(ours == clangs for ours, clangs in both)}")
report(f"programs: {len(results)}, {sum(ours[0] for _, ours, _, _ in results)} with a mistake", differences)
