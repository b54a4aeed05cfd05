"""Makes vectors/: the cases by which array libraries are judged. `tools/cases.py` writes them; docs/VECTORS.md has their form."""
import sys
from pathlib import Path

TOP = Path(__file__).resolve().parents[2]
sys.path.insert(0, str(TOP / "companion"))
