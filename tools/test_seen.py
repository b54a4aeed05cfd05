"""Who sees a write: `seen by s, head and temp`, beside NumPy's memory."""
import random
import re
import unittest
from unittest import mock

from trials.companion_trials import PATIENT, PROGRAM, InFolder, needs_program, numpy_or_none, share, tool_here
from bench_tool import Session, hints, seen
from bench_tool.seen import Places

np = numpy_or_none()
BEGIN = ["a = arange <i4 0 24 1", "m = reshape a (4,6)", "r = zeros T{<i:x:<h:y:3s:s:} (6)"]


def byte_set(places):
    """The bytes of items at equal steps, one by one."""
    offsets = [places.at]
    for length, stride in zip(places.shape, places.strides):
        offsets = [offset + k * stride for offset in offsets for k in range(length)]
    return {offset + k for offset in offsets for k in range(places.size)}


@needs_program
class Seen(InFolder):
    def test_meetings(self):
        """Rows of items meet where they have a byte in common."""
        rng = random.Random(1)
        for _ in range(share(2000, 200_000)):
            both = []
            for _ in range(2):
                shape = tuple(rng.choice([0, 1, 2, 3, 5]) for _ in range(rng.randrange(4)))
                both.append(Places(rng.randrange(60), shape, tuple(rng.choice([-20, -12, -7, -4, 0, 1, 3, 4, 8, 12, 24]) for _ in shape), rng.choice([1, 2, 4, 9])))
            self.assertEqual(seen.meet(*both), bool(byte_set(both[0]) & byte_set(both[1])), both)

    def view(self, rng, name, names):
        source = rng.choice(names)
        return f"{name} = " + rng.choice([f"{source}[::2]", f"{source}[1:]", f"{source}[::-1]", f"{source}[0]", f"{source}[...,1]", f"transpose {source}", f'field {source} "y"',
                                          f'field {source} "s"', f"{source}[:2]", f"{source}[None]", f"copy {source} C", f"{source}[-1:]", f"broadcast {source} (2,6)"])

    @unittest.skipUnless(np, "NumPy is not installed")
    def test_random_views(self):
        """A name sees a write if a changed byte is in one of its items: each written item is changed, and who prints something else has seen it."""
        rng, tried = random.Random(2), 0
        shown = mock.patch.object(seen, "MOST_SHOWN", 100)
        shown.start()
        self.addCleanup(shown.stop)
        for _ in range(share(40, 2000)):
            with Session(PROGRAM, dir=self.folder) as bench, hints.Hints(bench, PATIENT) as made:
                bench.run(BEGIN)
                for k in range(8):
                    bench.send(self.view(rng, f"v{k}", bench.names()))
                bench.run(["i = array <i8 (2) 0 -1", "k = full ? (6) True", "set k[1:4] = False"])
                for _ in range(6):
                    name = rng.choice([name for name in bench.names() if bench.info(name).writable])
                    index = rng.choice(["0", "1:", "::2", "...", "...,0", "-1", "i", "k", "0,1:", "None,0", "i,0"])
                    before = {name: bench.ask(f"print {name}") for name in bench.names()}
                    kind = bench.info(name).type
                    value = "(7,7,b'q')" if kind.startswith("T") else "b'q'" if kind.startswith("|S") else "True" if kind == "|b1" else str(rng.randrange(100, 999))
                    line = f"set {name}[{index}] = {value}"
                    if bench.send(line).accepted and any(bench.ask(f"print {name}") != text for name, text in before.items()):
                        changed = [name for name in bench.names() if bench.ask(f"print {name}") != before[name]]
                        told = made.seen(line)
                        found = re.findall(r"\w+", told.removeprefix("seen by ").removesuffix(" only").replace(" and ", " "))
                        self.assertLessEqual(set(changed), set(found), (line, told))
                        shared = {other for other in bench.names() if bench.ask(f"shares {name} {other}") == "shares yes"}
                        self.assertLessEqual(set(found), shared, (line, told))
                        tried += 1
        self.assertGreater(tried, 60)

    def test_one_item(self):
        """Whether NumPy makes a copy where bench makes a view: of one item, except of a record."""
        with Session(PROGRAM, dir=self.folder) as bench:
            bench.run(BEGIN, check=True)
            for line, is_told in [("x = a[1]", True), ("x = m[1, -1]", True), ("x = m[1]", False), ("x = a[1:2]", False), ("x = a[None,1]", False), ("x = a[...,1]", False),
                                  ("x = r[1]", False), ("x = a", False), ("set a[1] = 5", False), ('x = field r "x"', False)]:
                bench.ask(line)
                self.assertEqual(seen.one_item(bench, line), "a view of one item; in NumPy it is a copy (`copy x C`)" * is_told, line)

    @unittest.skipUnless(np, "NumPy is not installed")
    def test_one_item_of_numpy(self):
        array, record = np.arange(6), np.zeros(3, [("x", "i4")])
        self.assertFalse(np.shares_memory(array, array[1]))
        self.assertTrue(np.shares_memory(array, array[..., 1]))
        record[1]["x"] = 5
        self.assertEqual(record["x"].tolist(), [0, 5, 0])

    def test_run_explains(self):
        script = self.folder / "script.bench"
        script.write_text("\n".join([*BEGIN, "row = m[1]", "c = copy m C", "set row[2] = 5", "upd c[0] add 1", "set m[0,0] = 1", "set a[:0] = 1", "set a[99] = 1"]) + "\n")
        _, said, status = tool_here("run", "--explain", script)
        told = [line.replace(str(script), "SCRIPT") for line in said.decode().splitlines()]
        self.assertEqual(told[:3], ["SCRIPT:6: seen by a, m and row", "SCRIPT:7: seen by c only", "SCRIPT:8: seen by a and m"])
        self.assertEqual((len(told), status), (5, 1))


if __name__ == "__main__":
    unittest.main()
