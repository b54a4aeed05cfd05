"""In which order the files of a crate can be read: lib.rt or main.rt, which says what the crate is, and then each file after those that it
imports. That is possible as no file imports one that imports it, by others or at once."""
import graphlib
import re

import sources


def modules(crate):
    """The files of a crate by the names of their modules."""
    folder = sources.TOP / "crates" / crate / "src"
    return {"::".join(path.relative_to(folder).with_suffix("").parts): path for path in sorted(folder.rglob("*.rt"))}


def imports(name, code, known):
    """The modules among the known ones that the code of one of them names. What it only exports does not count."""
    code = re.sub(r"//.*", "", code)
    paths = re.findall(r"\bcrate::([\w:]+)", code)
    paths += [f"{name.rpartition('::')[0]}::{rest}" for rest in re.findall(r"^use super::([\w:]*)", code, re.M)]
    paths += [f"{name}::{child}" for child in re.findall(r"^use (\w+)::", code, re.M)]
    parts = [path.split("::") for path in paths]
    named = [[first for length in range(len(path), 0, -1) if (first := "::".join(path[:length])) in known][:1] for path in parts]
    return sorted({first for firsts in named for first in firsts} - {name})


def graph(crate):
    """The modules of a crate, each with those that it imports; the topmost imports none, as it only exports."""
    known = modules(crate)
    return {name: [] if name in ("lib", "main") else imports(name, path.read_text(), known) for name, path in known.items()}


def in_order(crate):
    """The files of a crate in the order in which they can be read. Where some import each other in a circle, graphlib.CycleError names them."""
    known, wanted, read = modules(crate), graph(crate), []
    graphlib.TopologicalSorter(wanted).prepare()

    def follow(names):
        for name in names:
            if name not in read:
                follow(wanted[name])
                read.append(name)

    follow([name for name in known if name in ("lib", "main")])
    follow(known)
    return [known[name] for name in read]
