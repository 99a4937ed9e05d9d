"""Where things are in the repository."""

from pathlib import Path

ROOT = Path(__file__).resolve().parent.parent.parent
TESTS, EXAMPLES, SCRIPTS = ROOT / "tests", ROOT / "examples", ROOT / "scripts"
CRATES = {crate.name: crate for crate in sorted((ROOT / "crates").iterdir()) if (crate / "src").is_dir()}
