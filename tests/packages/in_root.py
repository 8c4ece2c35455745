"""What the tests of the packages have in common: a Debian with a KDC of its own for each, and the packages in it."""

import pathlib
import subprocess

from harness.command import TOP
from tests.checked import Checked
from tests.packages import mit
from tests.packages.root import Failed, Root

# seconds that a client is ahead, so that it isn't refused in the five minutes after a start
AHEAD = 298


def compile_ahead(folder):
    """The library that sets a program's clock ahead."""
    folder.mkdir(parents=True)
    source = TOP / "harness/ahead.c"
    subprocess.run(["gcc", "-O1", "-shared", "-fPIC", f"-DAHEAD={AHEAD}", "-o", folder / "ahead.so", source], check=True)


class InRoot(Checked):
    """The command line sets `options`, and `debs`, the folder with the packages in revisions 0 and 1 (`__main__`)."""

    kind = mit
    options = debs = None

    def setUp(self):
        self.root = self.enter(Root(self.kind.KIND, self.options.keep))
        compile_ahead(self.root.path("/opt/try"))
        self.before, self.now = (self.put(*it) for it in enumerate((self.options.before or self.debs, self.debs)))
        self.realm = self.kind.Realm(self.root)

    def put(self, number, folder):
        """Puts the packages of a version, the one before or this one, into the root. Their names there."""
        revision = "*" if number == 0 and self.options.before else f"*-{number}*"
        files = [it for name in ("boddrelyn", self.kind.AGENT) for it in pathlib.Path(folder).glob(f"{name}_{revision}_*.deb")]
        if len(files) != 2:
            raise Failed(f"in {folder} there aren't two packages of {self.kind.NAME}'s, but {len(files)}")
        place = self.root.path(f"/opt/try/{number}")
        place.mkdir()
        for file in files:
            (place / file.name).write_bytes(file.read_bytes())
        return [f"/opt/try/{number}/{file.name}" for file in files]

    def shown(self, found):
        return f"{len(found)} bytes" if isinstance(found, bytes) else found
