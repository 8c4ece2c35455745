"""Builds Debian packages from the program that the gate built.

    python3 -m packaging.deb [--program PROGRAM] [--out FOLDER] [--packages FOLDER] [--only PACKAGE] .. [--revision N] .. [--unproved]
        [--lintian]

writes boddrelyn_VERSION_ARCH.deb and those of the agents, boddrelyn-agent-mit and boddrelyn-agent-heimdal, into
FOLDER (packaging/out if it isn't given), and prints their names. PROGRAM is crates/chpw_server/out/chpw_server if it isn't
given, and has to be the one that the gate proved, of the present sources: the gate's record beside it says so
(gate_record.py), and the package's BUILD has what it says. --unproved packs any program, for tests: version, description and
BUILD of the packages say that it wasn't proved. The agents are compiled over Debian's packages, which harness/fetch.sh unpacks in
the folder of --packages (CHPW_PACKAGES, or chpw-packages in the temporary folder). The version is the program's, with the
revision N (1). --lintian runs lintian over them, and the status is 1 if it finds anything that no override explains.

The same sources give the same bytes: files are dated by SOURCE_DATE_EPOCH, or the last commit. It needs dpkg-dev, gcc, make
and Python 3.10 or later, and nothing of the Rattle toolchain.
"""

import argparse
import pathlib
import subprocess
import sys
import tempfile

from harness import realm
from packaging import agent_programs, gate_record, package, version

HERE = pathlib.Path(__file__).resolve().parent
PROGRAM = gate_record.PROGRAM


def checked(program):
    """The program, if it is one and has the version of the source."""
    if not program.is_file():
        sys.exit(f"no program at {program}: bash .ci/run builds it")
    run = subprocess.run([program, "--version"], capture_output=True, text=True, check=False)
    said = (run.stdout + run.stderr).split()
    if said[:2] != ["chpw_server", version.PROGRAM]:
        sys.exit(f"{program} says that it is {' '.join(said)}, and the source has {version.PROGRAM}")
    return program


def proof_of(arguments):
    """The gate's record of the program, or None with --unproved."""
    if arguments.unproved:
        return None
    try:
        return gate_record.checked(arguments.program)
    except gate_record.Refused as fault:
        sys.exit(f"{arguments.program} isn't packed: {fault}. bash .ci/run proves it; --unproved packs it for tests")


def built(arguments, scratch):
    """The packages, made one after the other."""
    made, program = [], checked(arguments.program)
    proof, plain = proof_of(arguments), program
    for name in arguments.only or package.NAMES:
        kind = name.removeprefix("boddrelyn-agent-") if name != "boddrelyn" else None
        if kind is None:
            program, libraries = plain, ()
        else:
            program = agent_programs.built(kind, arguments.packages, scratch)
            libraries = agent_programs.libraries(kind, arguments.packages, scratch)
        program = agent_programs.stripped(program, scratch)
        depends = package.depends(kind, program, libraries, scratch)
        for revision in arguments.revision or ["1"]:
            it = package.Package(name, f"{version.PROGRAM}-{revision}", scratch / revision / name, proof, plain)
            it.fill(program)
            made.append(it.build(arguments.out, depends))
    return made


def main():
    form = argparse.RawDescriptionHelpFormatter
    parser = argparse.ArgumentParser(prog="python3 -m packaging.deb", description=__doc__, formatter_class=form)
    parser.add_argument("--program", type=pathlib.Path, default=PROGRAM)
    parser.add_argument("--out", type=pathlib.Path, default=HERE / "out")
    parser.add_argument("--packages", type=pathlib.Path, default=realm.packages_folder())
    parser.add_argument("--only", choices=package.NAMES, action="append")
    parser.add_argument("--revision", action="append")
    parser.add_argument("--unproved", action="store_true")
    parser.add_argument("--lintian", action="store_true")
    arguments = parser.parse_args()
    arguments.out.mkdir(parents=True, exist_ok=True)
    with tempfile.TemporaryDirectory(prefix="boddrelyn-deb-") as scratch:
        made = built(arguments, pathlib.Path(scratch))
    for file in made:
        print(file, flush=True)
    if arguments.lintian:
        words = ["--fail-on", "error,warning", "--allow-root", "--tag-display-limit", "0"]
        return 1 if subprocess.run(["lintian", *words, *made], check=False).returncode else 0
    return 0


if __name__ == "__main__":
    sys.exit(main())
