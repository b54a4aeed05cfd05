"""The files of a crate can be read one after the other: no two import each other, directly or through others; and what two
documents name is there."""
import graphlib
import re
import unittest

from trials.companion_trials import TOP
from make.words import reading

CRATES = sorted(path.parent.name for path in TOP.glob("crates/*/src"))
# What a line defines: a function, a type and the like; a variant of an enum; a definition or a lemma.
DEFINED = re.compile(r"\b(?:fn|struct|enum|trait|type|const|def|class|function|record|data) (\w+)|^ +([A-Z]\w+)\b|^(?:[a-z]+ )*([\w'-]+) :", re.M)
OF_THE_TOOLCHAIN = {"Common", "Display", "Prelude", "from_residual"}


class Reading(unittest.TestCase):
    def test_no_file_imports_one_that_imports_it(self):
        for crate in CRATES:
            with self.subTest(crate=crate):
                graph = reading.graph(crate)
                order = list(graphlib.TopologicalSorter(graph).static_order())
                self.assertEqual(sorted(order), sorted(graph))

    def test_each_file_stands_after_those_that_it_imports(self):
        for crate in CRATES:
            known, graph, before = reading.modules(crate), reading.graph(crate), set()
            names = {path: name for name, path in known.items()}
            for path in reading.in_order(crate):
                self.assertLessEqual(set(graph[names[path]]), before, path)
                before.add(names[path])
            self.assertEqual(before, set(known))

    def test_what_counts_as_an_import(self):
        known = dict.fromkeys(["lib", "block", "block::builder", "item", "words", "words::verbs"])
        for name, code, wanted in [
            ("block", "use crate::item::{put_item, Item};\nuse std::vec::Vec;\n", ["item"]),
            ("block", "mod builder;\npub use builder::BlockBuilder;\n", []),
            ("block", "use builder::BlockBuilder;\n", ["block::builder"]),
            ("block::builder", "use super::{RawBlock, padded};\n", ["block"]),
            ("item", "fn f() { crate::words::verbs::find(); } // as in crate::block\n", ["words::verbs"]),
            ("words", "use crate::words::verbs::Verb;\nuse crate::words::Own;\n", ["words::verbs"]),
            ("item", "#[tactic(auto, unfolding(crate::specs::Items::item))]\n", []),
        ]:
            self.assertEqual(reading.imports(name, code, known), wanted, code)

    def test_the_files_that_the_map_names(self):
        """In a row of a table, a name without a folder lies beside the file that is named before it."""
        for line in (TOP / "docs/MAP.md").read_text().splitlines():
            folder = None
            for name in re.findall(r"`([\w/]+\.(?:rt|antt))`", line) if line.startswith("|") else []:
                path = TOP / "crates" / name if name.split("/")[0] in CRATES else folder and folder / name
                if path:
                    self.assertTrue(path.is_file(), line)
                    folder = path.parent

    def test_the_names_in_documents_on_the_code(self):
        """In backticks: a file is in the tree, and a name with a capital or an underscore is defined in it."""
        folders = [*TOP.glob("crates/*/[sp]*"), *(TOP / name for name in "tools companion page library docs man dist".split())]
        paths = [path for folder in folders for path in folder.rglob("*.*")]
        known = OF_THE_TOOLCHAIN.union(*({path.stem, *path.parts} for path in paths))
        for path in paths:
            if path.suffix in (".rt", ".antt", ".py", ".mjs"):
                known.update(name for found in DEFINED.findall(path.read_text()) for name in found)
        for page in ("MAP", "CONTRIBUTING"):
            for name in re.findall(r"`(\w[\w/:.]*)`", (TOP / f"docs/{page}.md").read_text()):
                with self.subTest(page=page, name=name):
                    if "." in name:
                        self.assertTrue((TOP / name).exists() or any(path.match(name) for path in paths))
                    elif re.search(r"[A-Z]\w*[a-z]|[a-z]_", name) and not (TOP / name).exists():
                        self.assertFalse(set(re.split("::|/", name)) - known)


if __name__ == "__main__":
    unittest.main()
