"""Writes the files that an oracle works out, or compares them with what is stored."""
import sys
from pathlib import Path

ROOT = Path(__file__).resolve().parents[2]


def as_bytes(files):
    """Returns the files with each text encoded."""
    return {name: content.encode() if isinstance(content, str) else content
            for name, content in files.items()}


def difference(stored, wanted):
    """Returns where two files first differ, and how."""
    try:
        pairs = [content.decode().split("\n") for content in (stored, wanted)]
    except UnicodeDecodeError:
        pairs, place = [list(stored), list(wanted)], "byte"
    else:
        place = "line"
    found, made = pairs
    index = next((i for i, (a, b) in enumerate(zip(found, made)) if a != b),
                 min(len(found), len(made)))

    def shown(parts):
        return repr(parts[index]) if index < len(parts) else "nothing"

    return f"{place} {index + 1} is {shown(found)}, and {shown(made)} is worked out"


def check(oracle, files):
    """Prints the first difference of each file, and returns how many files differ."""
    differing = 0
    for name, wanted in files.items():
        path = ROOT / name
        stored = path.read_bytes() if path.exists() else b""
        if not path.exists() or stored != wanted:
            differing += 1
            print(f"FAILED  {name}: {difference(stored, wanted)}")
    if not differing:
        print(f"passed  the {len(files)} files that {oracle} works out")
    return differing


def main(files):
    """Writes the files, which come by their paths, or compares them. Returns the exit status."""
    oracle = Path(sys.argv[0]).resolve().relative_to(ROOT)
    if sys.argv[1:] == ["--check"]:
        return 1 if check(oracle, files()) else 0
    if sys.argv[1:]:
        print(f"usage: {oracle} [--check]", file=sys.stderr)
        return 64
    for name, content in files().items():
        (ROOT / name).parent.mkdir(parents=True, exist_ok=True)
        (ROOT / name).write_bytes(content)
    return 0
