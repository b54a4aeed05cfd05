"""What docs/LANGUAGE.md says about commands and codes: the texts of `help`, Tab and refusals, read from its tables."""
import re
import textwrap
from functools import lru_cache
from pathlib import Path
from string import Template
from typing import NamedTuple

from .numpy_rules import NO_FLOATS

HERE = Path(__file__).resolve()
PLACES = (HERE.with_name("LANGUAGE.md"), HERE.parents[1] / "LANGUAGE.md", HERE.parents[2] / "docs/LANGUAGE.md")
LISTS = re.compile(r"(?:OP is one of|the comparisons|UN one of|RED one of)\s+`([^`]*)`")
# What the words of the column of refusals stand for.
GROUPS = {
    "type": "E04 E05 E09", "shape": "E08 E09", "index": "E10 E12 E11 E08 E14 E13 E15",
    "file": "E28 E29 E30 E31 E04 E05 E08 E09",
}
# Words, and lines that run as they stand; $word is the word.
EXAMPLES = [row.split(": ") for row in r"""
zeros: x = zeros <i4 (2,3)
full: x = full |u1 (4) 255
arange: x = arange <i4 0 6 1
array: x = array <i4 (2,2) 1 2 3 4
field: r = array T{<i:x:<h:y:} (2) (1,2) (3,4); x = field r "y"
transpose: m = zeros <i4 (2,3); x = transpose m
reshape: a = arange <i4 0 6 1; x = reshape a (2,-1)
broadcast: a = arange <i4 0 3 1; x = broadcast a (2,3)
copy: m = zeros <i4 (2,3); x = copy m F
cast: a = arange <i4 0 6 1; x = cast a |u1
add sub mul fdiv mod and or xor shl shr eq ne lt le gt ge: a = arange <i4 0 6 1; x = $word a 2
neg not: a = arange <i4 0 6 1; x = $word a
sum prod min max any all argmin argmax: m = full <i4 (2,3) 1; x = $word m; x = $word m 0 keep
save load: a = arange <i4 0 6 1; save a "a.npy"; x = load "a.npy"
set: a = arange <i4 0 6 1; set a[1:] = a[:-1]; set a[0] = 9
upd: a = arange <i4 0 6 1; upd a[:] add 1
del undo names: a = arange <i4 0 6 1; del a; undo; names
print info format: a = arange <i4 0 6 1; print a; info a; format a
shares: a = arange <i4 0 6 1; b = a[::2]; shares a b
""".strip().splitlines()]


class Command(NamedTuple):
    """A row of the table of commands."""

    forms: tuple[str, ...]
    reply: str
    what: str
    refused: str

    def words(self) -> set[str]:
        """The words of the command: those of its forms, and those that OP, UN and RED stand for."""
        parts = " ".join(self.forms).split()
        return {word for part in parts for word in operations().get(part, re.findall(r"\b[a-z]{2,}\b", part))}

    def told(self) -> str:
        groups = re.sub(r"\b(type|shape|index|file)\b", lambda found: GROUPS[str(found[1])], self.refused)
        refusals = [f"          {code} {codes()[code][0]}" for code in dict.fromkeys(re.findall(r"E\d\d", groups))]
        begin = [*(f"  {form}" for form in self.forms), f"      {self.what}", f"      replies {self.reply}"]
        return "\n".join(begin + [f"      refused, in this order: {self.refused}"] * bool(refusals) + refusals)


@lru_cache(None)
def text() -> str:
    """The page, installed or in the repository."""
    return next(filter(Path.is_file, PLACES), PLACES[-1]).read_text(encoding="utf-8")


def rows(begin: str) -> list[list[str]]:
    """The rows of the table with this head, without Markdown's marks for code."""
    table = text().partition(f"\n| {begin} |")[2].partition("\n\n")[0].splitlines()[2:]
    return [[cell.strip() for cell in re.split(r"(?<!\\)\|", line)[1:-1]] for line in table]


@lru_cache(None)
def lists() -> list[list[str]]:
    """The words of the operations of two arrays, of the comparisons, of the operations of one array and of the reductions."""
    return [words.split() for words in LISTS.findall(text())]


@lru_cache(None)
def operations() -> dict[str, list[str]]:
    """The words that OP, UN and RED stand for."""
    binary, comparisons, unary, reductions = lists()
    return {"OP": binary + comparisons, "UN": unary, "RED": reductions}


@lru_cache(None)
def commands() -> list[Command]:
    plain = [(forms, *(cell.replace("`", "") for cell in cells)) for forms, *cells in rows("Command")]
    return [Command(tuple(re.findall(r"`([^`]*)`", forms)), *cells) for forms, *cells in plain]


@lru_cache(None)
def codes() -> dict[str, tuple[str, str]]:
    """The text of each code, and when it occurs."""
    return {code: (words, when.replace("`", "")) for code, words, when in rows("Code")}


def verbs(behind: bool) -> list[str]:
    """The verbs that begin a line, or those that follow `X =`."""
    forms = [form for command in commands() for form in command.forms if form.startswith("X = ") == behind]
    firsts = [form.replace("X = ", "").split()[0] for form in forms]
    return sorted({word for first in firsts for word in operations().get(first, [first]) if word[0].islower()})


def plain(markdown: str) -> str:
    """A section of the page without Markdown's marks: no fences, no pictures, tables as columns."""
    text = re.sub(r"^(```|!\[|\|[-|]+$).*\n", "", markdown, flags=re.M).replace("`", "").replace("**", "")
    made = []
    for line in re.sub(r"\[([^]]*)\]\([^)]*\)", r"\1", text).splitlines():
        cells = [cell.strip().replace("\\|", "|") for cell in re.split(r"(?<!\\)\|", line)[1:-1]] if line.startswith("|") else []
        made.append(f"{cells[0]:44} {'  '.join(cells[1:])}" if cells else line)
    return re.sub(r"\n{3,}", "\n\n", "\n".join(made))


def paragraphs(word: str) -> list[str]:
    """The first paragraphs of the page that have a word, in the singular or the plural."""
    stem = re.escape(word.lower().removesuffix("ing").rstrip("s"))
    if re.fullmatch("float|double|decimal|real", stem):
        return [f"  {NO_FLOATS}"]
    found = [part for part in text().split("\n\n") if len(stem) > 2 and re.search(rf"\b{stem}", part, re.I) and part[:1] not in "|#`!"]
    return [plain(part) for part in found[:3]]


def help_text(word: str = "", columns: int = 0) -> str:
    """All forms; for a command its form, what it does, its reply, its refusals and an example; for a code when it occurs; or a section."""
    if word in codes():
        return f"  {word} {codes()[word][0]}: {codes()[word][1]}"
    if word:
        found = [command.told() for command in commands() if word in command.words() or word in command.forms]
        example = next((lines for words, lines in EXAMPLES if word in words.split()), "")
        lines = Template(example).substitute(word=word).replace("; ", f"\n{' ' * 10}")
        found += [f"      for example:\n{' ' * 10}{lines}"] * bool(found and example)
        sections = [plain(part.rstrip()) for part in text().split("\n## ") if word in part.partition("\n")[0].lower().split()]
        return "\n".join(found or sections or paragraphs(word)) or f"  there is no command {word}; help lists them all"
    width = max(len(form) for command in commands() for form in command.forms)
    shown = [f"  {form:{width}}  {command.what or command.reply}" for command in commands() for form in command.forms]
    shown += [f"  {key} is one of {' '.join(words)}" for key, words in operations().items()]
    shown += ["  help COMMAND shows an example and the refusals, help E11 says when that code comes; help types, help shapes,",
              "  help indexes and help limits say what these are"]
    indent = " " * (width + 4)
    if columns <= width + 30:
        return "\n".join(shown)
    return "\n".join(line for each in shown for line in textwrap.wrap(each, columns, subsequent_indent=indent))
