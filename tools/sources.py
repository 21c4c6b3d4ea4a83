"""The files of the crates that people write: those of src/, specs/, proofs/ and must-fail/, and nothing that rt makes in a crate's out/."""

from pathlib import Path

ROOT = Path(__file__).resolve().parent.parent


def sources(*kinds):
    """The paths of the files with one of these endings, sorted."""
    return sorted(path for part in ("src", "specs", "proofs", "must-fail") for kind in kinds for path in ROOT.glob(f"crates/*/{part}/**/*.{kind}"))
