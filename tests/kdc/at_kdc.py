"""What all tests at a KDC have: a realm, the service's program, and what the command line says."""

import collections

from tests.checked import Checked
from tests.kdc import realms
from tests.kdc.agent_process import talking
from tests.kdc.daemons import comes


class AtKdc(Checked):
    """Each kind makes principals of its own, and `made` counts them. The command line sets the others (`__main__`)."""

    realm = program = options = None
    made = collections.Counter()

    def tell(self, what, found, wanted=True):
        return super().tell(f"{self.realm.KIND}: {what}", found, wanted)

    def name(self, known=True):
        """A new one, in the KDC with FIRST as its password where it is to be known there."""
        kind = type(self).__name__.lower()
        self.made[kind] += 1
        name = f"{kind}{self.made[kind]}"
        if known:
            self.realm.add(name, realms.FIRST)
        return name

    def own_names(self):
        """The table of a configuration by which the names that are made here are the service's, and no others."""
        return f'\n[kdc]\ninclude = ["{type(self).__name__.lower()}*"]\n'

    def talking(self, *options, **more):
        """A connection to an agent of its own."""
        return talking(self.realm, *options, **more)

    def keys_are_the_tables(self, served, names, types=None):
        """The KDC has of each name the newest keys of the service's table, and no others of these types, by default of all, once
        both were compared."""
        def keys():
            return {it for it in self.realm.keys(names) if types is None or it[2] in types}
        comes(lambda: keys() == served.newest_keys(names))
        found, wanted = keys(), served.newest_keys(names)
        missing, other = len(wanted - found), len(found - wanted)
        self.tell(f"the table's {len(wanted)} newest keys: missing in the KDC, and others there", (missing, other), (0, 0))


def at(kind):
    """Marks a test that is for this KDC alone."""
    def mark(test):
        test.KIND = kind
        return test
    return mark
