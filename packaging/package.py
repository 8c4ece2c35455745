"""One Debian package: its files, its control files, and dpkg-deb."""

import email.utils
import gzip
import hashlib
import os
import pathlib
import re
import subprocess

from packaging import gate_record, manual, version

HERE = pathlib.Path(__file__).resolve().parent
TOP = HERE.parent
NAMES = ("boddrelyn", "boddrelyn-agent-mit", "boddrelyn-agent-heimdal")
MAINTAINER = "Boddrelyn maintainers <maintainers@users.noreply.boddrelyn.example>"
UNITS = "usr/lib/systemd/system"
# files of the package boddrelyn, from the top of the repository
FILES = {
    "packaging/boddrelyn.logrotate": "etc/logrotate.d/boddrelyn",
    "packaging/sysusers.conf": "usr/lib/sysusers.d/boddrelyn.conf",
    "packaging/tmpfiles.conf": "usr/lib/tmpfiles.d/boddrelyn.conf",
    "samples/realm.toml": "usr/share/doc/boddrelyn/examples/realm.toml",
    "samples/head.toml": "usr/share/doc/boddrelyn/examples/head.toml",
}
DOCUMENTS = ("ADMIN.md", "PROTOCOL.md", "SECURITY.md")
# of the description
PROVED = """\
 The program is proved against its specification with the Rattle toolchain,
 of which nothing is needed here. An agent, in a package of its own, reads and
 writes keys in the database of a KDC for it."""
UNPROVED = """\
 FOR TESTS ALONE: THE PROGRAM OF THIS PACKAGE WASN'T PROVED. An agent, in a
 package of its own, reads and writes keys in the database of a KDC for it."""


def built(proof, program):
    """What BUILD says: of which sources the packages are, and what was proved."""
    lines = {"Program with its symbols, SHA-256": gate_record.sum_of(program)}
    if proof:
        lines |= {"Source commit": proof["commit"], "Toolchain": proof["toolchain"], "Last line of the gate's proofs": proof["gate"]}
    else:
        changed = " and changes that no commit has" if gate_record.said("git", "status", "--porcelain") else ""
        lines |= {"Source commit": gate_record.commit() + changed, "Proof": "none. This package is for tests"}
    return "".join(f"{name}: {value}\n" for name, value in lines.items())


class Package:
    def __init__(self, name, number, folder, proof, program):
        """`proof` is the gate's record of the service's program, or None if it isn't proved."""
        number = number if proof else f"{number}~unproved"
        self.name, self.version, self.folder = name, number, folder
        self.build_text = built(proof, program)
        self.kind = name.removeprefix("boddrelyn-agent-") if name != "boddrelyn" else None
        self.arch = subprocess.run(["dpkg", "--print-architecture"], capture_output=True, text=True, check=True).stdout.strip()
        self.words = {"VERSION": number, "ARCH": self.arch, "MAINTAINER": MAINTAINER, "PACKAGE": name,
                      "PROOF": PROVED if proof else UNPROVED, "DATE": email.utils.formatdate(version.moment(), usegmt=False).replace("-0000", "+0000")}
        (folder / "DEBIAN").mkdir(parents=True)

    def put(self, place, data, mode=0o644):
        path = self.folder / place
        path.parent.mkdir(parents=True, exist_ok=True)
        path.write_bytes(data)
        path.chmod(mode)

    def put_packed(self, place, data):
        self.put(f"{place}.gz", gzip.compress(data, 9, mtime=0))

    def text(self, *names):
        """Files of packaging/debian one after the other, with the package's words; those that aren't there are left out."""
        found = [HERE / "debian" / name for name in names]
        text = "".join(file.read_text() for file in found if file.is_file())
        return re.sub(r"@([A-Z]+)@", lambda it: self.words.get(it[1], it[0]), text)

    # ---- what is in it

    def fill(self, program):
        """All files but those of DEBIAN/ that speak of the others."""
        self.program = self.folder / "usr/sbin" / (f"kdc_{self.kind}" if self.kind else "chpw_server")
        # nobody may trace a program that may be run and not read, and it leaves no core (prctl(2), PR_SET_DUMPABLE)
        self.put(self.program.relative_to(self.folder), program.read_bytes(), 0o755 if self.kind else 0o711)
        self.put(f"etc/default/{self.name}", (HERE / "debian" / f"{self.name}.default").read_bytes())
        self.put(f"{UNITS}/{self.name}.service", (HERE / "units" / f"{self.name}.service").read_bytes())
        if self.kind:
            self.put(f"{UNITS}/boddrelyn.service.d/agent.conf", (HERE / "units/agent.conf").read_bytes())
        else:
            for source, place in FILES.items():
                self.put(place, (TOP / source).read_bytes())
        for page, package in manual.PACKAGES.items():
            if package == self.name:
                self.put_packed(f"usr/share/man/man{page[-1]}/{page}", manual.page(page).encode())
        self.fill_documents()
        self.fill_scripts()

    def fill_documents(self):
        place = f"usr/share/doc/{self.name}"
        self.put(f"{place}/copyright", self.text("copyright").encode())
        self.put_packed(f"{place}/changelog.Debian", self.text("changelog").encode())
        self.put_packed(f"{place}/changelog", (TOP / "CHANGELOG.md").read_bytes())
        text = f"{self.build_text}/{self.program.relative_to(self.folder)}, SHA-256: {gate_record.sum_of(self.program)}\n"
        self.put(f"{place}/BUILD", text.encode())
        if not self.kind:
            self.put(f"{place}/README.Debian", self.text("boddrelyn.README.Debian").encode())
            for name in DOCUMENTS:
                self.put_packed(f"{place}/{name}", (TOP / "docs" / name).read_bytes())
        overrides = self.text(f"{self.name}.lintian-overrides")
        if overrides:
            self.put(f"usr/share/lintian/overrides/{self.name}", overrides.encode())

    def fill_scripts(self):
        first = "agent" if self.kind else "boddrelyn"
        for name, parts in (("postinst", (f"{first}.postinst", "unit.postinst")), ("prerm", ("unit.prerm",)),
                            ("postrm", ("unit.postrm", f"{self.name}.postrm"))):
            self.put(f"DEBIAN/{name}", self.text(*parts).encode(), 0o755)

    # ---- what speaks of the others

    def build(self, out, depends):
        files = sorted(it for it in self.folder.rglob("*") if it.is_file() and "DEBIAN" not in it.parts)
        names = [it.relative_to(self.folder) for it in files]
        self.put("DEBIAN/conffiles", "".join(f"/{it}\n" for it in names if it.parts[0] == "etc").encode())
        sums = (f"{hashlib.md5(file.read_bytes()).hexdigest()}  {name}\n" for file, name in zip(files, names)
                if name.parts[0] != "etc")
        self.put("DEBIAN/md5sums", "".join(sums).encode())
        self.words["SIZE"] = str(sum(-(-it.stat().st_size // 1024) for it in files))
        self.words["DEPENDS"] = depends
        self.put("DEBIAN/control", self.text(f"{self.name}.control").encode())
        for path in [self.folder, *self.folder.rglob("*")]:
            if path.is_dir():
                path.chmod(0o755)
            os.utime(path, (version.moment(), version.moment()))
        file = out.resolve() / f"{self.name}_{self.version}_{self.arch}.deb"
        environment = dict(os.environ, SOURCE_DATE_EPOCH=str(version.moment()))
        subprocess.run(["dpkg-deb", "--root-owner-group", "-Zxz", "--build", self.folder, file], env=environment,
                       stdout=subprocess.DEVNULL, check=True)
        return file


def depends(kind, program, libraries, scratch):
    """The packages of the libraries that a program is linked with."""
    place = scratch / f"shlibdeps-{kind}"
    (place / "debian").mkdir(parents=True)
    (place / "debian/control").write_text("Source: boddrelyn\n\nPackage: boddrelyn\nArchitecture: any\n")
    words = [f"-S{folder}" for folder in libraries]
    run = subprocess.run(["dpkg-shlibdeps", "-O", "--warnings=0", *words, f"-e{program.resolve()}"], cwd=place,
                         capture_output=True, text=True, check=False)
    if run.returncode:
        raise SystemExit(f"dpkg-shlibdeps: {run.stderr.strip()}")
    found = run.stdout.strip().removeprefix("shlibs:Depends=").split(", ")
    if kind == "heimdal":
        found = [of_same_upstream(it, libraries) for it in found]
    return ", ".join(found)


def of_same_upstream(dependency, libraries):
    """The agent calls what Heimdal declares in private headers: its libraries have to be of the upstream version that it was
    compiled with, whatever Debian's revision."""
    name = dependency.split()[0]
    for folder in libraries:
        control = (folder / "DEBIAN/control").read_text()
        number = re.search(r"^Version: (?:\d+:)?(.*)-[^-]*$", control, re.MULTILINE)
        if re.search(rf"^Package: {re.escape(name)}$", control, re.MULTILINE) and name.startswith(("libkadm5srv", "libhdb")):
            return f"{name} (>= {number[1]}), {name} (<< {number[1]}.1~)"
    return dependency
