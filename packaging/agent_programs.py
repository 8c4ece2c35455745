"""The programs: the agents, compiled as Debian compiles its own, without symbols, and the packages that they depend on."""

import pathlib
import subprocess

from harness import agent_building, realm

FLAGS = ["dpkg-buildflags", "--get"]


def fetched(folder):
    subprocess.run([realm.FETCH, folder], check=True)
    return folder


def built(kind, packages, scratch):
    """The program kdc_mit or kdc_heimdal, without symbols."""
    folder = scratch / f"built-{kind}"
    folder.mkdir()
    flags = []
    for name in ("CPPFLAGS", "CFLAGS", "LDFLAGS"):
        words = subprocess.run([*FLAGS, name], env={"DEB_BUILD_MAINT_OPTIONS": "hardening=+all", "PATH": "/usr/bin:/bin"},
                               cwd=scratch, capture_output=True, text=True, check=True)
        flags += words.stdout.split()
    flags += ["-g0", "-fPIE", "-pie", "-Wl,--as-needed"]
    program = agent_building.built(realm.Project(fetched(packages) / kind), folder, kind, flags)
    return pathlib.Path(program)


def stripped(program, scratch):
    """A copy without symbols, whose loaded parts are the same."""
    copy = scratch / f"stripped-{program.name}"
    words = ["--strip-all", "--remove-section=.comment", "--remove-section=.note", "-o", copy]
    subprocess.run(["strip", *words, program], check=True)
    return copy


def libraries(kind, packages, scratch):
    """The folders of the libraries' packages, each with its DEBIAN/symbols or DEBIAN/shlibs, for dpkg-shlibdeps."""
    found = []
    for file in sorted((packages / kind / "packages").glob("lib*.deb")):
        folder = scratch / f"of-{kind}" / file.stem
        folder.parent.mkdir(exist_ok=True)
        subprocess.run(["dpkg-deb", "-R", file, folder], check=True)
        found.append(folder)
    return found
