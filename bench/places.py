"""Where the instructions of a text stand in C, by its debug information. Independent of what `msan` prints of them."""
import re

NODE = re.compile(r"^(![0-9]+) = (.*)$")
INSTRUCTION = re.compile(r"^  [^ \]#]")  # not the end of a switch, or a debug record
ATTACHED = re.compile(r"!dbg (![0-9]+)")


def places_of(path):
    """FILE:LINE:COLUMN of each site of a text, or "" where it has none; sites count from 1."""
    nodes, attached = {}, [""]
    with open(path) as file:
        for line in file:
            node = NODE.match(line)
            location = ATTACHED.search(line)
            if node:
                nodes[node[1]] = node[2]
            elif INSTRUCTION.match(line):
                attached.append("")
            if location and line.startswith("  ") and len(attached) > 1:  # a switch has it after its cases
                attached[-1] = location[1]
    return [place(nodes, location) for location in attached]


def field(nodes, node, name):
    found = re.search(rf"\b{name}: (![0-9]+|\"[^\"]*\"|[0-9]+)", nodes.get(node, ""))
    return found[1].strip('"') if found else ""


def place(nodes, location):
    if not location:
        return ""
    name = field(nodes, field(nodes, field(nodes, location, "scope"), "file"), "filename")
    return f"{name}:{field(nodes, location, 'line')}:{field(nodes, location, 'column')}"
