"""What scripts of tools/ write into the documents is as they would write it now."""

import subprocess
import sys

from .tree import TOP

# each with a file that it writes; a script whose file isn't kept has nothing to compare
SCRIPTS = {
    "decisions": "docs/decisions/README.md",
    "quotes": "docs/PROOFS.md",
    "tables": "docs/RESULTS.md",
    "picture": "docs/layers.svg",
    "way": "docs/way.svg",
}


def check(_tree, faults):
    for name, made in SCRIPTS.items():
        if (TOP / "tools" / f"{name}.py").is_file() and (TOP / made).is_file():
            command = [sys.executable, "-m", f"tools.{name}", "--check"]
            run = subprocess.run(command, cwd=TOP, capture_output=True, text=True, check=False)
            faults.check(run.returncode == 0, f"tools.{name} --check", (run.stdout + run.stderr).strip())
