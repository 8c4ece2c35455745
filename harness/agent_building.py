"""Builds an agent over a project's packages, as harness/fetch.sh has unpacked them."""

import pathlib
import subprocess

SOURCES = pathlib.Path(__file__).resolve().parent.parent / "agent"
BELOW = {"mit": "mit-krb5", "heimdal": "heimdal"}
LIBRARIES = {"mit": "kadm5srv_mit kdb5 krb5 k5crypto", "heimdal": "kadm5srv hdb krb5 asn1 roken"}


def built(project, folder, kind, flags=()):
    """The program `kdc_mit` or `kdc_heimdal` in that folder, by agent/Makefile."""
    include = project.folder / "usr/include"
    places = [pathlib.Path(place) for place in project.libraries.split(":")]
    libraries = [f"-L{place / BELOW[kind]}" for place in places if (place / BELOW[kind]).is_dir()]
    libraries += [f"-l{library}" for library in LIBRARIES[kind].split()]
    libraries += [f"-Wl,-rpath-link,{place}" for place in places]
    variables = [
        f"OUT={folder}",
        f"{kind.upper()}_CFLAGS=-isystem {include} -isystem {include / BELOW[kind]}",
        f"{kind.upper()}_LIBS={' '.join(libraries)}",
        f"CFLAGS=-O2 -g {' '.join(flags)}",
    ]
    program = folder / f"kdc_{kind}"
    subprocess.run(["make", "-s", "-C", SOURCES, *variables, program], check=True)
    return str(program)
