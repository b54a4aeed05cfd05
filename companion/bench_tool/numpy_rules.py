"""What NumPy's lines, and lines that are nearly right, are in the language: words, patterns and templates, as plain values.

`translate.py` reads them, and so can another language: `python3 -m bench_tool.numpy_rules` writes them as JSON.

- LINES: a pattern of a whole line and what it becomes: `as` another line ($1 is its first group), or nothing, for the reason that it
  `say`s. The patterns are tried in turn, each on what the one before it made.
- OPERATORS: Python's operators, by the names of Python's parser. TURNED: an operation with its operands exchanged.
- WORDS: other words for those of the language. TYPES: NumPy's names of types.
- CALLS: functions and methods with NumPy's parameters, what must hold of the arguments, and what they are then: an expression of the
  same arguments, lines, or a reason after `!`. In lines $x is the name that is made and $t, $u and $v are free names; the last line
  that begins with `$x =` is the value, and a parameter stands for its operand.
- REASONS: what there is not, and why. NO_KIND: what there is not, by the letters of types.
- SAID: what else is said of a refused line, with {0}, {1} and {2} for what was typed.
"""
import json
import re
from typing import Any

TARGET = r"([A-Za-z_]\w*(?:\.[A-Za-z_]\w*)*\s*(?:\[(?:[^\[\]]|\[[^\[\]]*\])*\])*)"
SIGN = r"(\*\*|//|<<|>>|[-+*%&|^/@])"
NO_FLOATS = "there are no floats, only integers, bools, byte strings and records"
NO_TEXT = "there are no Unicode strings: a byte string is b'..', of type |S5 for 5 bytes"
ONE_COMMAND = "each line is one command"

LINES = [
    {"when": r"(exit|quit)(\(\))?", "say": "`exit` ends the shell; a script ends with its last line"},
    {"when": r"undo\W+\d+\W*", "say": "`undo` takes back one change: write it once for each"},
    {"when": r"undo\s*\(\s*\)", "say": "write `undo`, without parentheses"},
    {"when": r"redo(\(\))?", "say": "there is no `redo`: what `undo` took back is typed again"},
    {"when": r"(who|whos|dir|ls|vars|globals|locals|history|list|show)(\(\))?", "say": "`names` lists the names; in the shell `.names` has their types and shapes too"},
    {"when": r"(clear|cls|reset)(\(\))?", "say": "`del a` unbinds a name; `exit` ends the shell"},
    {"when": r"(import|from)\s.*", "say": f"there is no import: {ONE_COMMAND}, and nothing is imported"},
    {"when": r"(for|while|if|elif|else|with|try|class|def|assert|return|raise|lambda|global)\b.*", "say": f"there is no `$1`: {ONE_COMMAND}"},
    {"when": r"(?:set\s+)?(\w+\s*\[[^\]]*\])\s*=\s*-?\d+(?:\s+-?\d+)+", "say": "several values are an array: `t = array <i4 (3) 1 2 3`, and then `set $1 = t`"},
    {"when": r"[^\"']*\[[^\]]*\.\.\.[^\]]*\.\.\..*", "say": "an index has `...` once at most"},
    {"when": r"save\s+(\w+)\s+[\"']?\S*/\S*", "say": "a file name has no folder: --dir chooses the folder of all files"},
    {"when": r"(?:let|var|const|auto|int|int \*)\s+(\w+\s*=.*)", "as": "$1"},
    {"when": r"(\w+)\s*:=\s*(.+)", "as": "$1 = $2"},
    {"when": TARGET + r"\s*<-\s+(.+)", "as": "$1 = $2"},
    {"when": r"(.*\b(?:zeros|full|array|arange|cast)\s.*?[biuS]\d+)\((.*)", "as": "$1 ($2"},
    {"when": rf"set\s+{TARGET}\s+([-+])(\d\w*)", "say": "write `set $1 = $2$3`, or `upd $1 add $2$3`"},
    {"when": rf"(?:set|upd)\s+{TARGET}\s*{SIGN}=\s*(.+)", "as": "$1 $2= $3"},
    {"when": rf"upd\s+{TARGET}\s*{SIGN}\s*([^=].*)", "as": "$1 $2= $3"},
    {"when": rf"set\s+{TARGET}\s+{SIGN}\s+(.+)", "as": "$1 $2= $3"},
    {"when": r"(?:set|upd)\s+(\w+)\s*==?\s*(.+)", "as": "$1[...] = $2"},
    {"when": rf"(?:set|upd)\s+{TARGET}\s*==?\s*(.+)", "as": "$1 = $2"},
    {"when": r"set\s+(\w+)\s+([^=\s].*)", "as": "$1[...] = $2"},
    {"when": rf"set\s+{TARGET}\s+([^=\s].*)", "as": "$1 = $2"},
    {"when": r"save\s+([\"'][^\"']*[\"'])\s+(\w+)", "as": "save $2 $1"},
    {"when": r"(.*\w)\s+([-+*%&|^]|//|<<|>>)\s+(\w.*)", "as": "$1$2$3"},
    {"when": r"(.*=\s*)load\s+([\w.-]+)", "as": "$1load \"$2\""},
    {"when": r"(save\s+\w+)\s+([\w.-]+)", "as": "$1 \"$2\""},
]

OPERATORS = {
    "Add": "add", "Sub": "sub", "Mult": "mul", "FloorDiv": "fdiv", "Mod": "mod", "BitAnd": "and", "BitOr": "or", "BitXor": "xor",
    "LShift": "shl", "RShift": "shr", "Eq": "eq", "NotEq": "ne", "Lt": "lt", "LtE": "le", "Gt": "gt", "GtE": "ge", "USub": "neg", "Invert": "not",
}
TURNED = {"add": "add", "mul": "mul", "and": "and", "or": "or", "xor": "xor", "eq": "eq", "ne": "ne", "lt": "gt", "gt": "lt", "le": "ge", "ge": "le"}

WORDS = {
    "subtract": "sub", "multiply": "mul", "floor_divide": "fdiv", "remainder": "mod", "bitwise_and": "and", "bitwise_or": "or", "bitwise_xor": "xor",
    "left_shift": "shl", "right_shift": "shr", "equal": "eq", "not_equal": "ne", "less": "lt", "less_equal": "le", "greater": "gt", "greater_equal": "ge",
    "negative": "neg", "invert": "not", "bitwise_not": "not", "amin": "min", "amax": "max", "zeroes": "zeros", "empty": "zeros", "broadcast_to": "broadcast",
    "astype": "cast", "range": "arange", "plus": "add", "minus": "sub", "times": "mul", "shares_memory": "shares", "bitwise_left_shift": "shl",
    "bitwise_right_shift": "shr", "abs": "absolute", "pow": "power", "permute_dims": "transpose", "concat": "concatenate", "around": "round",
}

TYPES = {"int": "<i8", "bool": "|b1", "bool_": "|b1", "byte": "|i1", "ubyte": "|u1", "uint": "<u8", "intp": "<i8", "short": "<i2", "ushort": "<u2", "intc": "<i4",
         "uintc": "<u4", "longlong": "<i8", "ulonglong": "<u8", "int8": "|i1", "int16": "<i2", "int32": "<i4", "int64": "<i8", "uint8": "|u1", "uint16": "<u2",
         "uint32": "<u4", "uint64": "<u8"}

AND = "`{0}` takes the truth of a whole array; item by item it is `{1}`, between parentheses"
# A call with its parameters; what must hold (a type of an argument, or the number of its axes, one after the other); what it is.
CALLS = [
    ("flatten(a)", "", ["$t = copy $a C", "$x = reshape $t (-1)"]),
    ("ravel(a)", "C a", ["$x = reshape $a (-1)"]),
    ("ravel(a)", "copies a", ["$x = reshape $a (-1)"]),
    ("ravel(a)", "", ["$t = copy $a C", "$x = reshape $t (-1)"]),
    ("view(a)", "", "a[...]"),
    ("view(a, dtype)", "", "!there is no view under another type; `cast` makes an array with the same values"),
    ("copy(a)", "", ["$x = copy $a C"]),
    ("fill(a, value)", "", "a[...] = value"),
    ("absolute(x)", "unsigned x", "x.copy()"),
    ("absolute(x)", "integer x", "where(x < 0, -x, x)"),
    ("square(x)", "integer x", "x * x"),
    ("power(x1, x2)", "", "x1 ** x2"),
    ("positive(x)", "integer x", "x.copy()"),
    ("logical_not(x)", "bool x", "~x"),
    ("logical_not(x)", "integer x", "x == 0"),
    ("logical_and(x1, x2)", "", "truth(x1) & truth(x2)"),
    ("logical_or(x1, x2)", "", "truth(x1) | truth(x2)"),
    ("logical_xor(x1, x2)", "", "truth(x1) ^ truth(x2)"),
    ("truth(x)", "bool x", "x"),
    ("truth(x)", "integer x", "x != 0"),
    ("count_nonzero(a)", "", "truth(a).sum()"),
    ("maximum(x1, x2)", "", "where(x1 < x2, x2, x1)"),
    ("minimum(x1, x2)", "", "where(x1 > x2, x2, x1)"),
    ("fmax(x1, x2)", "", "maximum(x1, x2)"),
    ("fmin(x1, x2)", "", "minimum(x1, x2)"),
    ("clip(a, a_min, a_max)", "number a_min, number a_max, integer a", ["$x = copy $a C", "$t = lt $x $a_min", "set $x[$t] = $a_min", "$t = gt $x $a_max", "set $x[$t] = $a_max"]),
    ("clip(a, a_min, a_max)", "none a_min", "minimum(a, a_max)"),
    ("clip(a, a_min, a_max)", "none a_max", "maximum(a, a_min)"),
    ("clip(a, a_min, a_max)", "", "minimum(maximum(a, a_min), a_max)"),
    ("diff(a)", "1 a", "a[1:] - a[:-1]"),
    ("outer(a, b)", "1 a, 1 b", "a[:, None] * b"),
    ("flipud(m)", "", "m[::-1]"),
    ("fliplr(m)", "", "m[:, ::-1]"),
    ("take(a, indices)", "1 a, array indices", "a[indices]"),
    ("take(a, indices, axis)", "0 axis, array indices", "a[indices]"),
    ("zeros_like(a)", "", "zeros(a.shape, a.dtype)"),
    ("empty_like(a)", "", "zeros(a.shape, a.dtype)"),
    ("ones_like(a)", "", "full(a.shape, 1, a.dtype)"),
    ("full_like(a, fill_value)", "", "full(a.shape, fill_value, a.dtype)"),
    ("zeros_like(a, dtype)", "", "zeros(a.shape, dtype)"),
    ("ones_like(a, dtype)", "", "full(a.shape, 1, dtype)"),
    ("full_like(a, fill_value, dtype)", "", "full(a.shape, fill_value, dtype)"),
    ("ones(shape, dtype)", "", "full(shape, 1, dtype)"),
    ("eye(N, dtype)", "number N", ["$x = zeros $dtype ($N,$N)", "$t = arange <i8 0 $N 1", "set $x[$t,$t] = 1"]),
    ("identity(n, dtype)", "", "eye(n, dtype)"),
    ("vstack(tup)", "2 tup", "concatenate(tup)"),
    ("vstack(tup)", "1 tup", "stack(tup)"),
    ("hstack(tup)", "1 tup", "concatenate(tup)"),
    ("hstack(tup)", "2 tup", "concatenate(tup, 1)"),
    ("append(arr, values)", "1 arr, 1 values", "concatenate([arr, values])"),
    ("roll(a, shift)", "1 a, number shift", "concatenate([a[-(shift):], a[:-(shift)]])"),
    ("sum(a, axis)", "tuple axis", "!one axis at a time: a sum of a sum"),
    ("len(a)", "", "a.shape[0]"),
    ("size(a)", "", "a.size"),
    ("ndim(a)", "", "a.ndim"),
    ("shape(a)", "", "a.shape"),
]

REASONS = {
    NO_FLOATS: "mean average std var median percentile quantile sqrt cbrt exp exp2 log log2 log10 log1p sin cos tan linspace logspace rand randn random normal "
               "uniform true_divide divide float_power nan inf pi e isnan isinf ceil floor rint float float16 float32 float64 double complex complex128",
    "there are no random numbers": "randint choice shuffle permutation seed",
    NO_TEXT: "str_ unicode_ char",
}

NO_KIND = {"f": "floats", "c": "complex numbers", "m": "time spans", "M": "dates", "U": "Unicode strings", "O": "Python objects",
           "V": "plain bytes"}

SAID = {
    "too long": "the line has more than 65,536 bytes",
    "mark": "the file begins with a byte order mark: save it without one",
    "letter": "`{0}` in column {1}: a line has letters, digits and signs of ASCII; in b'..' write \\xhh",
    "comment": "a comment needs a line of its own",
    "unbound": "{0} is not bound",
    "near": "did you mean {0}?",
    "names": "names: {0}",
    "no name": "no name is bound yet",
    "files": "there are the files {0}",
    "no file": "there are no files: Open files, or drop them on the page",
    "folder": "looked for in {0}",
    "then": "`{0}` is then {1}: {2}",
    "reserved": "a name; `{0}` is a word of the language",
    "before": "a name and `=`, before `{0}`",
    "long name": "a name of at most 32 letters",
}


def phrase(key: str, *words: object) -> str:
    """A text of SAID about some words."""
    return re.sub(r"\{(\d)\}", lambda found: str(words[int(found[1])]), SAID[key])


def values() -> dict[str, Any]:
    """All rules, by their names."""
    names = ("SAID", "LINES", "OPERATORS", "TURNED", "WORDS", "TYPES", "AND", "CALLS", "REASONS", "NO_FLOATS", "NO_TEXT", "NO_KIND")
    return {name: globals()[name] for name in names}


def main() -> None:
    print(json.dumps(values(), indent=1))


if __name__ == "__main__":
    main()
