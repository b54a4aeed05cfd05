"""What `tools/believed.py` finds, in a small repository of two crates."""
import textwrap
import unittest
from pathlib import Path

from trials.companion_trials import InFolder
import believed

FILES = {
    "crates/low/src/lib.rt": """
        use other::Thing;

        pub struct Span {
            thing: Inner,
        }

        struct Inner(u8);

        impl Model for Inner {
            ghost view = { λ inner. twice inner };
        }
        """,
    "crates/low/specs/Sizes.antt": """
        -- sizes
        use Rattle.std.specs.Prelude.{ℕ, ◌+◌}

        abbrev pub twice : ℕ → ℕ
        twice n = n ⊕ n

        -- cites no one
        abbrev pub ◌⊕◌ : ℕ → ℕ → ℕ
        n ⊕ m = n + m

        abbrev pub unused : ℕ
        unused = 7
        """,
    "crates/high/src/runner.rt": """
        ghost use Rattle.high.specs.Clauses.{meant};
        ghost use Rattle.low.specs.declared.Span as Spans;

        pub fn run<T>(of: T) -> u8
            ensures { result ≡ meant of }
        {
            0
        }
        """,
    "crates/high/specs/Clauses.antt": """
        pub use Rattle.high.specs.Meaning.{meant}
        """,
    "crates/high/specs/Meaning.antt": """
        use Rattle.std.specs.Prelude.{ℕ}
        use Rattle.high.specs.Words.{twice as doubled}

        abbrev pub meant : ℕ → ℕ
        meant n = helped (doubled n)

        abbrev helped : ℕ → ℕ
        helped n = n -- unused
        """,
    "crates/high/specs/Words.antt": """
        pub use Rattle.low.specs.Sizes.{twice}
        """,
}


class Believed(InFolder):
    def setUp(self):
        super().setUp()
        for name, text in FILES.items():
            path = self.folder / name
            path.parent.mkdir(parents=True, exist_ok=True)
            path.write_text(textwrap.dedent(text).lstrip())

    def test_what_the_contract_reaches(self):
        found = believed.believed(self.folder, ("crates/high/src/runner.rt", "run"))
        self.assertEqual({str(file): names for file, names in found.items()},
                         {"high/specs/Meaning.antt": ["meant", "helped"], "low/specs/Sizes.antt": ["twice"]})

    def test_a_type_is_its_view_or_its_fields(self):
        repository = believed.Repository(self.folder)
        reached = repository.reached({("low.specs.declared.Span", "Span")})
        self.assertEqual(reached, set())
        self.assertEqual(set(repository.fields_of("low", "Span")), {("low.specs.declared.Inner", "Inner")})
        self.assertIn("twice", repository.models["low", "Inner"][0])

    def test_definitions_of_a_file(self):
        text = (self.folder / "crates/low/specs/Sizes.antt").read_text()
        found = [(name, is_public, stated) for name, is_public, stated, _ in believed.statements(text)]
        self.assertEqual(found[0], ("twice", True, "abbrev pub twice : ℕ → ℕ"))
        self.assertEqual([name for name, _, _ in found], ["twice", "◌⊕◌", "unused"])

    def test_the_same_under_other_names_reads_alike(self):
        one, other = ("abbrev pub f : (n m : ℕ) → ℕ\nf n m = n + m", "g : (a b : ℕ) → ℕ\ng a b = a + b")
        self.assertEqual(believed.renamed(one, "f"), believed.renamed(other, "g"))
        self.assertNotEqual(believed.renamed(one, "f"), believed.renamed(other.replace("a + b", "b + a"), "g"))

    def test_this_repository(self):
        found = believed.believed()
        self.assertGreater(sum(map(len, found.values())), 300)
        self.assertIn(Path("bench_engine/specs/Machine.antt"), found)


if __name__ == "__main__":
    unittest.main()
