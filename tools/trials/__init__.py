"""What is tried on the built program beside its proofs: `tools/try` says how. Needs NumPy where it says so."""
import sys
from pathlib import Path

TOP = Path(__file__).resolve().parents[2]
sys.path.insert(0, str(TOP / "companion"))
