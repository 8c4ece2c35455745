"""A KDC whose database is in a directory, for the tests of the agent and of the service there."""

from tests.kdc.at_kdc import AtKdc
from tests.kdc.ldap_realms import KINDS
from tests.kdc.realms import FIRST

USERS = {name: FIRST for name in ("alice", "admin")}


class InDirectory(AtKdc):
    """Its tests have a realm of their own, in place of the one that all others have."""

    @classmethod
    def setUpClass(cls):
        cls.realm = KINDS[AtKdc.realm.KIND](USERS, AtKdc.options.keep).__enter__()
        cls.addClassCleanup(cls.realm.__exit__, None, None, None)
