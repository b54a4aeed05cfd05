#!/usr/bin/env python3
"""Writes the keywords that docs/LANGUAGE.md lists into help, manual page and syntax files, and docs/FILES.md from the sources."""
import pathlib
import re
import sys

TOP = pathlib.Path(__file__).resolve().parents[2]
sys.path[:0] = [str(TOP / "companion"), str(TOP / "tools/make")]
import reading  # noqa: E402
from bench_tool import language  # noqa: E402

HELP, SOURCE, FILES = "docs/help.txt", "crates/host_process/src/command_line.rt", "docs/FILES.md"
LISTS = re.compile(r"((OP is one of|the comparisons|UN (?:is )?one of|RED (?:is )?one of)\s+(?:\.B )?)[a-z ]+")
VIM, TEXT_MATE = "editors/vim/syntax/bench.vim", "editors/bench.tmLanguage.json"


def listed(text):
    """A text whose lists of what OP, UN and RED stand for are those of the page."""
    words = dict(zip(("OP", "the", "UN", "RED"), language.lists()))
    return LISTS.sub(lambda found: found[1] + " ".join(words[found[2].split()[0]]), text)


def helped(source):
    """The help: what the command line says of itself, and the commands of the source."""
    commands = re.search(r'const COMMANDS: &str = "(.*?[^\\])";', source, re.S)[1].replace('\\"', '"').replace("\\\\", "\\")
    return (TOP / HELP).read_text().partition("Commands, one per line:")[0] + commands + "\n"


def groups():
    """The words by what the syntax files tell apart."""
    of, asks = language.operations(), [command.forms for command in language.commands() if not command.reply.startswith("ok")]
    ask = [form.split()[0] for forms in asks for form in forms]
    make = [word for word in language.verbs(True) if not any(word in words for words in of.values())]
    change = [word for word in language.verbs(False) if word not in ask]
    return {"Make": make, "Change": change, "Ask": ask, "Operation": of["OP"] + of["UN"], "Reduction": of["RED"]}


def coloured(vim, text_mate):
    """The syntax files with the words of each group."""
    of = groups()
    for name, words in of.items():
        vim = re.sub(rf"(syntax keyword bench{name}) .*", rf"\1 {' '.join(words)}", vim)
    scopes = {"keyword.control": of["Change"] + of["Ask"], "support.function": of["Make"] + of["Reduction"],
              "keyword.operator.word": of["Operation"]}
    for name, words in scopes.items():
        text_mate = re.sub(rf'("{name}.bench",\s*"match": "[^"]*\(\?:)[a-z|]*', lambda found: found[1] + "|".join(words), text_mate)
    return vim, text_mate


def said(source):
    """The first sentence of what a source file says of itself."""
    lines = re.match(r"(?://! ?.*\n)*", source)[0].replace("//!", "").split("\n\n")[0]
    return re.split(r"(?<=[^.]\.)\s", " ".join(lines.split()))[0].replace("|", "\\|")


def listing():
    """A line for each source file, crate by crate, lowest first, in the order in which they can be read."""
    page = "# Files\n\nWhat each source file holds: the first sentence of its `//!`. The crates stand lowest first. Read the files of a crate from"
    page += " top to bottom:\n`lib.rt` says what the crate offers, and each of the others stands after those that it imports. No file imports one"
    page += " that imports it,\ndirectly or through others. `make words` writes this page.\n"
    for crate in re.findall(r"(?m)^(\w+)(?: staticlib)?:", (TOP / "crates.txt").read_text()):
        folder = TOP / "crates" / crate / "src"
        rows = [f"| `{path.relative_to(folder)}` | {said(path.read_text())} |\n" for path in reading.in_order(crate)]
        page += f"\n## {crate}\n\n| File | What it holds |\n|---|---|\n" + "".join(rows)
    return page


def texts():
    """Each text as it is to be, by its path."""
    kept = {path: (TOP / path).read_text() for path in (SOURCE, "man/bench.1", VIM, TEXT_MATE)}
    made = {path: listed(kept[path]) for path in (SOURCE, "man/bench.1")}
    return {**made, HELP: helped(made[SOURCE]), FILES: listing(), **dict(zip((VIM, TEXT_MATE), coloured(kept[VIM], kept[TEXT_MATE])))}


if __name__ == "__main__":
    for path, text in texts().items():
        if not (TOP / path).is_file() or (TOP / path).read_text() != text:
            (TOP / path).write_text(text)
