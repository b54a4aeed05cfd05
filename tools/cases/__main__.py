"""Writes vectors/, or some families of it, as bench answers them; then, with --numpy, what NumPy makes of them. Run it in tools/: python3 -m cases."""
from __future__ import annotations

import argparse
from pathlib import Path

from . import TOP, broadcasting, by_numpy, files, numbers, overlap, records, reducing, selecting, slices, views
from .maker import Maker

FAMILIES = {module.__name__.rpartition(".")[2]: module for module in (slices, overlap, views, broadcasting, selecting, numbers, reducing, records, files)}


def main() -> int:
    parser = argparse.ArgumentParser(prog="python3 -m cases", description=__doc__)
    parser.add_argument("-o", dest="folder", type=Path, default=TOP / "vectors")
    parser.add_argument("families", nargs="*", metavar="FAMILY", choices=[[], *FAMILIES])
    parser.add_argument("--numpy", action="store_true", help="only write what NumPy makes of the cases that are there")
    given = parser.parse_args()
    if given.numpy:
        by_numpy.label(given.folder)
        return 0
    for name in given.families or FAMILIES:
        maker = Maker()
        FAMILIES[name].all_cases(maker)
        maker.write(given.folder)
        for family, cases in maker.cases.items():
            print(family, len(cases), sum(len(case.rows) or 1 for case in cases), (given.folder / f"{family}.jsonl").stat().st_size, flush=True)
    return 0


if __name__ == "__main__":
    raise SystemExit(main())
