"""Tells scripts about the repository: its root, the files that git knows, the width of lines."""
import re
import subprocess
from pathlib import Path

ROOT = Path(__file__).resolve().parent.parent
WIDTH = int(re.search(r"^max_line_length = (\d+)$", (ROOT / ".editorconfig").read_text(), re.M)[1])


def known_files(*patterns):
    """Returns the files that git knows or would know, by their paths from the root."""
    listed = subprocess.run(["git", "ls-files", "-z", "--cached", "--others", "--exclude-standard",
                             *patterns], cwd=ROOT, capture_output=True, text=True, check=True)
    return sorted(name for name in set(listed.stdout.split("\0")) if (ROOT / name).is_file())
