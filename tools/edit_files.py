"""Files of faults, crates/CRATE/must-fail/BUNDLE.edit and tools/faults/CRATE.edit: read, and written again; see tools/edits."""
import os
import re
import shutil
import sys
import textwrap

TOP = os.path.realpath(os.path.join(os.path.dirname(os.path.abspath(__file__)), ".."))
WIDTH = 150  # characters of a comment line that is written


def kit():
    """the folder of the Rattle kit"""
    rt = shutil.which("rt") or sys.exit("no Rattle kit: rt is missing")
    return os.environ.get("RATTLE_HOME") or os.path.dirname(os.path.dirname(os.path.realpath(rt)))


def read(path):
    with open(os.path.join(TOP, path), encoding="utf-8") as f:
        return f.read()


def write(path, text):
    with open(os.path.join(TOP, path), "w", encoding="utf-8") as f:
        f.write(text)


# Faults.

BEGINS = re.compile(r"([a-z][a-z0-9_]*): (\S.*)")
PLACE = re.compile(r"(`[^`;]+` )?(of `[^`;]+`|\(`[^`;]+`\))")


def lines():
    """crate -> the libraries that it uses, in the order of crates.txt"""
    found = (line.split("#")[0].split(":") for line in read("crates.txt").split("\n"))
    return {line[0].split()[0]: line[1].split() for line in found if len(line) == 2}


def crates():
    """the crates, in the order of crates.txt"""
    return list(lines())


def below(crate):
    """a crate and the repository's crates below it, in the order of crates.txt"""
    uses, found, left = lines(), set(), [crate]
    while left:
        name = left.pop()
        if name in uses and name not in found:
            found.add(name)
            left += uses[name]
    return [name for name in uses if name in found]


class Fault:
    """a wrong program or statement: what it is, the declarations that it breaks alone, and its replacements (file, old, new)"""

    def __init__(self, name, says):
        self.name, self.says = name, says
        self.alone, self.changes = [], []

    def files(self):
        return sorted({file for file, _, _ in self.changes})

    def text(self):
        """the fault as its file has it"""
        lines = textwrap.wrap("%s: %s" % (self.name, self.says), WIDTH - 2, break_long_words=False, break_on_hyphens=False)
        listed = []
        for place in self.alone:
            if listed and len("# alone: %s; %s" % (listed[-1], place)) <= WIDTH:
                listed[-1] += "; " + place
            else:
                listed.append(place)
        lines = ["# " + line for line in lines] + ["# alone: " + line for line in listed]
        before = None
        for file, old, new in self.changes:
            lines += ["file: " + file] if file != before else []
            lines += ["old: " + old, "new: " + new]
            before = file
        return "\n".join(lines) + "\n"


class Bundle:
    """a file of faults of a crate"""

    def __init__(self, crate, path):
        self.crate, self.path, self.faults = crate, path, []
        self.name = os.path.basename(path)[:-5]
        fault = file = old = None
        for number, line in enumerate(read(self.path).split("\n"), 1):
            if line.startswith("#") and (fault is None or fault.changes):
                if not (begins := BEGINS.fullmatch(line[1:].strip())) or begins.group(1) == "alone":
                    self.bad(number, "a fault begins with `# NAME: what is wrong`")
                fault, file, old = Fault(*begins.groups()), None, None
                self.faults.append(fault)
            elif line.startswith("# alone:"):
                places = [place.strip() for place in line[8:].split(";")]
                if not all(PLACE.fullmatch(place) for place in places):
                    self.bad(number, "a list is as `# alone: `returns-2` of `size_of`; `untied` (`Swaps.antt`)`")
                fault.alone += places
            elif line.startswith("#"):
                fault.says += " " + line[1:].strip()
            elif line.startswith("file: "):
                file = line[6:]
            elif line.startswith("old: "):
                old = line[5:]
            elif line.startswith("new:"):
                if fault is None or file is None or old is None:
                    self.bad(number, "before `new:` a fault has `# NAME: ..`, `file:` and `old:`")
                fault.changes.append((file, old, line[4:].removeprefix(" ")))
                old = None
            elif line.strip():
                self.bad(number, "neither a comment nor `file:`, `old:` or `new:`")
        if fault is None or not fault.changes:
            self.bad(number, "a fault without `old:` and `new:`")

    def bad(self, number, why):
        sys.exit("%s, line %d: %s" % (self.path, number, why))

    def lone(self, fault):
        """the declarations that a fault breaks alone and no other fault of the bundle does"""
        others = {place for other in self.faults if other is not fault for place in other.alone}
        return [place for place in fault.alone if place not in others]

    def text(self):
        return "\n".join(fault.text() for fault in self.faults)


def bundles():
    """crate -> its bundles; crates without any are left out"""
    found = {}
    for crate in crates():
        folder = os.path.join(TOP, "crates", crate, "must-fail")
        names = sorted(os.listdir(folder)) if os.path.isdir(folder) else []
        if names := [name for name in names if name.endswith(".edit")]:
            found[crate] = [Bundle(crate, "crates/%s/must-fail/%s" % (crate, name)) for name in names]
    return found
