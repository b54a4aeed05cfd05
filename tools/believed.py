#!/usr/bin/env python3
"""Lists the definitions that the contract of `bench_engine::run` reaches: what a reader has to believe.

    tools/believed.py            the definitions, by crate and file
    tools/believed.py --write    writes that list to docs/believed.txt
    tools/believed.py --check    says where that file is not up to date, which files docs/DEFINITIONS.md does not name, and whether it
                                 counts what is reached
    tools/believed.py --inside   the definitions that no public contract reaches, and so only provers use, which do not stand in
                                 specs/inside/; and those there that one does reach
    tools/believed.py --twice    statements that are proved twice, definitions that stand twice, and public words of specs/
                                 with two meanings

It follows the clauses of `run`, what the definitions that they cite cite in turn, for a type that contracts see as a value (`impl Model`)
what its view cites, and for any other the types of its fields. It does not follow the view of a type in SHOWN: there the contracts of
calls say what a caller sees, and it counts apart what these cite.

It reads the sources by patterns, because the toolchain has no such listing: `rt` tells of a crate whether it is proved, and what its macros
write; `rt lemma` finds one name. What is read is small: `use` lines, heads of definitions, and words. tools/test_believed.py tries it on a
small repository.
"""
from __future__ import annotations

import collections
import re
import sys
from collections.abc import Iterator
from pathlib import Path

TOP = Path(__file__).resolve().parent.parent
HEADLINE = ("crates/bench_engine/src/runner.rt", "run")
# A caller sees the state of a bench only through calls, and these show all of it. Their contracts would not hold if the fields
# represented another state, so that nobody has to believe the view.
SHOWN = {("name_store", "Bench"): ("crates/name_store/src/bench.rt", ("get", "name_at", "len", "undo"))}
# A definition: its module, and its name.
Item = tuple[str, str]
# A verdict carries its proof, so that its type says all, whatever the test is that finds it.
VERDICT = re.compile(r"→ \w+OrNot\b")
WORD = re.compile(r"[^\s(){}\[\],;]+")
# The files of a crate that only re-export what it and the crates below define.
HAND_ON = (".specs.Words", ".specs.Clauses")


def types(text: str) -> dict[str, str]:
    """The types that a .rt file imports: the crate where each stands, by its name; `crate` where it is the file's own."""
    found = {}
    for path, group, name in re.findall(r"(?m)^use (\w+)(?:::\w+)*::(?:\{([^}]*)\}|(\w+));", text):
        for item in (group or name).split(","):
            found[item.strip()] = path
    return found


class Source:
    """A file: what it defines, if it is a module of definitions, and what it imports, by name, and modules by alias."""

    def __init__(self, path: Path, module: str = ""):
        self.path, self.text, self.module = path, path.read_text(), module
        self.local = {name: whole for name, _, _, whole in statements(self.text)} if module else {}
        self.names: dict[str, Item] = {}
        self.modules: dict[str, str] = {}
        imports: list[tuple[str, str, str]] = re.findall(r"use Rattle\.([\w.«»]+)(?:\.\{([^}]*)\}| as (\w+))", self.text)
        for where, group, alias in imports:
            if alias:
                self.modules[alias] = where
            for item in filter(None, group.split(",")):
                there, _, here = item.strip().partition(" as ")
                self.names[here.strip() or there] = (where, there)

    def cites(self, text: str) -> set[Item]:
        """The definitions, and the types with a view, that a text of the file cites."""
        found: set[Item] = set()
        for word in WORD.findall(re.sub(r"--.*", "", text)):
            first, dot, rest = word.partition(".")
            found |= {self.names[start] for start in (word, first) if start in self.names}
            if word in self.local:
                found.add((self.module, word))
            if dot and first in self.modules:
                found.add((self.modules[first], rest.partition(".")[0]))
        symbols = {name: name.replace("◌", "") for name in self.names if "◌" in name}
        has_do = re.search(r"\bdo\b", text)
        return found | {self.names[name] for name, symbol in symbols.items() if symbol in text or symbol == ">>=" and has_do}


class Repository:
    """The modules of specs/, the code of each crate, the views of types, and the fields of types without one."""

    def __init__(self, top: Path = TOP):
        self.modules: dict[str, Source] = {}
        self.code: dict[str, list[Source]] = {}
        self.models: dict[Item, tuple[str, Source]] = {}
        self.fields: dict[Item, tuple[str, dict[str, str]]] = {}
        for crate in sorted((top / "crates").iterdir()):
            for file in sorted(crate.glob("specs/**/*.antt")):
                module = ".".join((crate.name, *file.relative_to(crate).with_suffix("").parts))
                self.modules[module] = Source(file, module)
            self.code[crate.name] = [Source(file) for file in sorted(crate.glob("src/**/*.rt"))]
            for source in self.code[crate.name]:
                for name, body in re.findall(r"impl(?:<[^>]*>)? Model for (\w+)[^{]*\{(.*?)\n\}", source.text, re.S):
                    self.models[crate.name, name] = (" ".join(re.findall(r"ghost view = \{(.*?)\};", body, re.S)), source)
                for name, body in re.findall(r"(?m)^(?:pub )?(?:struct|enum) (\w+)([^{;]*(?:\{[^}]*\}|;))", source.text):
                    self.fields[crate.name, name] = (body, types(source.text))

    def fields_of(self, crate: str, name: str) -> Iterator[Item]:
        """The types in the fields of a type that has no view."""
        body, imported = self.fields.get((crate, name), ("", {}))
        for word in set(re.findall(r"\b[A-Z]\w*", re.sub(r"//.*", "", body))):
            there = imported.get(word, "crate")
            where = crate if there == "crate" else there
            if (where, word) in self.fields:
                yield f"{where}.specs.declared.{word}", word

    def reached(self, todo: set[Item]) -> set[Item]:
        """What these definitions cite, they and all that is cited in turn."""
        done: set[Item] = set()
        while todo:
            module, name = todo.pop()
            while module.endswith(HAND_ON) and module in self.modules and name in self.modules[module].names:
                module, name = self.modules[module].names[name]
            if (module, name) in done:
                continue
            if declared := re.match(r"(\w+)\.specs\.declared\.", module):
                done.add((module, name))
                view, source = self.models.get((declared[1], name), ("", None))
                if (declared[1], name) not in SHOWN:
                    todo |= source.cites(view) if source else set(self.fields_of(declared[1], name))
            elif module in self.modules and name in self.modules[module].local:
                done.add((module, name))
                whole = self.modules[module].local[name]
                todo |= self.modules[module].cites(whole.partition(f"\n{name} ")[0] if VERDICT.search(whole) else whole)
        return {it for it in done if ".declared." not in it[0]}


def public_clauses(code: list[Source], with_invariants: bool) -> Iterator[tuple[Source, str]]:
    """The clauses of the public functions and types of a crate, those that its lib.rt names, each with the file that they stand in."""
    roots = [source.text for source in code if source.path.name == "lib.rt"]
    groups = [group for root in roots for found in re.findall(r"pub use [\w:]+::(?:\{([^}]*)\}|(\w+));", root) for group in found]
    names = {it.strip().split(" as ")[-1] for it in ",".join(groups).split(",") if it.strip()}
    wanted = r" *ghost (Value|view|invariant)\b" if with_invariants else r" *ghost (Value|view)\b"
    for source in code:
        for header in re.findall(r'(?m)^pub (?:extern "C" )?fn (?:.|\n)*?\n?\{$', source.text):
            if source.path.name == "lib.rt" or re.findall(r"fn (\w+)", header)[0] in names:
                yield source, header
        for of_trait, owner, body in re.findall(r"(?ms)^impl(?:<[^>]*>)? (?:([\w<>', ]+) for )?(\w+)[^{\n]*\{(.*?)^\}", source.text):
            headers = re.findall(r"(?m)^    (?:pub |final )*fn (?:.|\n)*?\n?    \{$|^    ghost [^\n]*;$", body) if owner in names else []
            for header in headers:
                if (of_trait or header.lstrip().startswith("pub")) and (of_trait != "Model" or re.match(wanted, header)):
                    yield source, header
        for owner, body in re.findall(r"(?ms)^pub (?:struct|enum|trait) (\w+)(.*?)^\}", source.text):
            if owner in names:
                yield source, " ".join(re.findall(r"(?m)^ *(?:pub )?ghost .*$", body)) + (body if " fn " in body else "")


def inside() -> Iterator[str]:
    """By file, the definitions outside specs/inside/ that no public contract of any crate reaches, and those inside that one does.

    Laws that other crates cite stand in specs/ as well, in files whose names end in Laws."""
    repository = Repository()

    def reached(with_invariants: bool) -> set[Item]:
        clauses = (found for code in repository.code.values() for found in public_clauses(code, with_invariants))
        return repository.reached({it for source, text in clauses for it in source.cites(text)})

    at_least, at_most = reached(False), reached(True)
    for module, source in sorted(repository.modules.items()):
        is_inside = ".specs.inside." in module
        astray = [name for name in source.local if ((module, name) in at_least if is_inside else (module, name) not in at_most)]
        if astray and not source.path.stem.endswith("Laws"):
            yield f"{source.path.relative_to(TOP / 'crates')}: {'all' if len(astray) == len(source.local) else ' '.join(astray)}"


BINDER = re.compile(r"[({]([^(){}:]+?) : ")
VALUE = re.compile(r"\s*\(?(ℕ|ℤ|Bool|Type|List|Option|Result|Maybe|IndexItem|Values)\b")
# Laws of equal shapes, which broadcasting and bench_engine prove each for itself: those in proofs/ are no other crate's to cite.
IN_TWO_CRATES = {"aligned-own", "common-of-none", "lengths-ones", "together-ones"}
# Two limits that are equal today are two; and do-notation asks for the name of a bind.
LIMIT = re.compile(r"it : ℕ it = \d+")
BIND = "◌>>=◌"
NAMED = re.compile(r"^((?:(?:abbrev|unfoldable|opaque|pub|record|data)\s+)*)([^\s:(){}]+)(?=[ :])")


def renamed(text: str, name: str) -> str:
    """A text with its own name and its variables numbered in their order, so that the same thing under other names reads alike."""
    text = " ".join(re.sub(r"--.*", "", text).split())
    text = re.sub(r"\b(?:abbrev|unfoldable|opaque|pub) ", "", text)
    words = re.findall(r"[^\s(){}\[\],;.]+|[(){}\[\],;.]", text)
    bound = {name: "it"}
    for group in BINDER.findall(text):
        for word in group.split():
            bound.setdefault(word, f"v{len(bound)}")
    for word in re.findall(r"λ ([^.]+)\.", text):
        for each in word.split():
            bound.setdefault(each, f"v{len(bound)}")
    return " ".join(bound.get(it, it) for it in words)


def statements(text: str) -> Iterator[tuple[str, bool, str, str]]:
    """The lemmas and definitions of an .antt file: the name, whether it is public, what is stated, and the whole."""
    found: list[tuple[str, bool, list[str]]] = []
    start: list[str] | None = None
    for line in [*text.split("\n"), "use "]:
        head = NAMED.match(line)
        if line.startswith(("use ", "pub use ", "unfoldable pub use ", "mod ", "pub mod ", "module ", "open ", "infix")):
            start = None
        elif head and (head[1] or line.startswith(f"{head[2]} : ")):
            start = [line]
            found.append((head[2], "pub" in head[1], start))
        elif start is not None:
            start.append(line)
    for name, is_public, lines in found:
        again = next((at for at, line in enumerate(lines[1:], 1) if (head := NAMED.match(line)) and head[2] == name), len(lines))
        stated = lines[:again]
        yield name, is_public, "\n".join(stated), "\n".join(lines)


def twice() -> Iterator[str]:
    """What stands twice."""
    proved: dict[str, set[Item]] = collections.defaultdict(set)
    defined: dict[str, set[Item]] = collections.defaultdict(set)
    public: dict[str, set[Item]] = collections.defaultdict(set)
    for file in [file for part in ("specs", "proofs") for file in (TOP / "crates").glob(f"*/{part}/**/*.antt")]:
        if file.name in ("Answers.antt", "Invariants.antt", "Proof.antt", "Lib.antt"):
            continue
        where = str(file.relative_to(TOP / "crates"))
        crate, part, *_ = where.split("/")
        is_law = part == "proofs" or file.stem.endswith("Laws")
        for name, is_public, stated, whole in statements(file.read_text()):
            result = stated.rpartition("→")[2] if "→" in stated else stated.partition(" : ")[2]
            if is_law and ":" in stated and not VALUE.match(result):
                proved[renamed(stated.partition(":")[2], name)].add((where, name))
                continue
            meaning = renamed(whole, name)
            if not LIMIT.fullmatch(meaning):
                defined[meaning].add((where, name))
            if is_public and name != BIND and part == "specs" and not is_law and "/inside/" not in where:
                public[name].add((crate, meaning))
    for what, found in (("stated", proved), ("defined", defined)):
        for meaning, places in sorted(found.items(), key=lambda it: sorted(it[1])):
            if len(places) > 1 and len(meaning) > 12 and not IN_TWO_CRATES & {name for _, name in places}:
                yield f"{what} {len(places)} times: " + ", ".join(f"{file}: {name}" for file, name in sorted(places))
    for name, pairs in sorted(public.items()):
        crates, meanings = {crate for crate, _ in pairs}, {meaning for _, meaning in pairs}
        if len(meanings) > 1 and len(crates) > 1:
            yield f"{name} means {len(meanings)} things: {', '.join(sorted(crates))}"


def contract(source: Source, name: str) -> set[Item]:
    """What the contract of a function of a file cites."""
    return source.cites(re.findall(rf"pub fn {name}\b.*?\n *\{{", source.text, re.S)[0])


def by_file(repository: Repository, reached: set[Item], top: Path = TOP) -> dict[Path, list[str]]:
    """Definitions by file, in their order."""
    found = {it.path.relative_to(top / "crates"): [name for name in it.local if (module, name) in reached]
             for module, it in repository.modules.items()}
    return {file: names for file, names in found.items() if names}


def believed(top: Path = TOP, headline: tuple[str, str] = HEADLINE) -> dict[Path, list[str]]:
    """By file, the definitions that the contract of a function reaches, in their order."""
    repository = Repository(top)
    return by_file(repository, repository.reached(contract(Source(top / headline[0]), headline[1])), top)


def shown() -> dict[Path, list[str]]:
    """By file, the definitions that only the contracts of the calls in SHOWN reach, and the headline does not."""
    repository = Repository()
    calls = [(Source(TOP / file), name) for file, names in SHOWN.values() for name in names]
    cited = {it for source, name in calls for it in contract(source, name)}
    return by_file(repository, repository.reached(cited) - repository.reached(contract(Source(TOP / HEADLINE[0]), HEADLINE[1])))


def listed(found: dict[Path, list[str]]) -> str:
    """The list that is kept of what is reached."""
    return "".join(f"{file}: {' '.join(names)}\n" for file, names in found.items())


def unlisted() -> Iterator[str]:
    """What the kept list lacks or has too much, and the files of it that stand in no table."""
    found, page = believed(), (TOP / "docs/DEFINITIONS.md").read_text()
    kept, here = ({(file, name) for file, _, names in (line.partition(": ") for line in text.splitlines()) for name in names.split()}
                  for text in ((TOP / "docs/believed.txt").read_text(), listed(found)))
    yield from (f"{file}: {name} is reached, and the list does not have it" for file, name in sorted(here - kept))
    yield from (f"{file}: the list has {name}, which is not reached" for file, name in sorted(kept - here))
    for file in sorted({file for file, _ in here | kept}):
        if f"`{file.partition('/specs/')[2]}`" not in page or f"`{file.partition('/')[0]}`" not in page:
            yield f"{file}: no table of DEFINITIONS.md names it"
    for file in unnamed(page):
        if Path(file) not in found:
            yield f"{file}: DEFINITIONS.md does not name it"
    if counted(found) not in page:
        yield f"DEFINITIONS.md should say that the headline reaches {counted(found)}"
    if counted(shown()) not in page:
        yield f"DEFINITIONS.md should say that the calls that show a bench reach {counted(shown())} more"


def unnamed(page: str) -> Iterator[str]:
    """The files of specs/ that are for readers, but for laws, that a page does not name."""
    for file in sorted((TOP / "crates").glob("*/specs/**/*.antt")):
        crate, _, name = file.relative_to(TOP / "crates").as_posix().split("/", 2)
        is_for_readers = not name.startswith("inside") and name not in ("Lib.antt", "Words.antt", "Clauses.antt") and not name.endswith("Laws.antt")
        row, part = rf"`{crate}`[^\n]*", rf"## [^\n]*`{crate}`(?:(?!\n## ).|\n(?!## ))*"
        if is_for_readers and not re.search(rf"(?:{row}|{part})`{re.escape(name)}`", page):
            yield f"{crate}/specs/{name}"


def counted(found: dict[Path, list[str]]) -> str:
    """How many definitions the headline reaches, and how many lines they have."""
    sources = {source.path.relative_to(TOP / "crates"): source for source in Repository().modules.values()}
    texts = [sources[file].local[name] for file, names in found.items() for name in names]
    lines = sum(len(re.sub(r"(?m)^--.*\n?", "", text).strip().splitlines()) for text in texts)
    return f"{len(texts):,} definitions, {lines:,} lines"


def whole() -> Iterator[str]:
    """The list of what is reached, how much that is, and how much more the calls that show a bench reach."""
    found = believed()
    yield f"{listed(found)}{counted(found)}; {counted(shown())} more for what a bench shows"


def main(word: str = "") -> int:
    if word == "--write":
        (TOP / "docs/believed.txt").write_text(listed(believed()))
        return 0
    told = list({"--inside": inside, "--twice": twice, "--check": unlisted}.get(word, whole)())
    print("\n".join(told), end="\n" * bool(told))
    return int(bool(told) and word in ("--twice", "--check"))


if __name__ == "__main__":
    sys.exit(main(*sys.argv[1:]))
