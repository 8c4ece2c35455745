"""The module `kerberos` of Debian's python3-kerberos: its changePassword, over MIT's library."""

import kerberos

import realm_inside
import told


def changed(name, old, new):
    """What it raises, in its words, or whether it is done."""
    try:
        return kerberos.changePassword(f"{name}@{realm_inside.REALM}", old, new)
    except kerberos.KrbError as fault:
        return str(fault)


def main():
    name = realm_inside.user("python")
    old, new = realm_inside.PASSWORD, "New-pass1"
    told.run("too short", lambda: told.wanted("it", changed(name, old, "short"), "('Password change rejected: password too short', 4)"))
    told.run("wrong old password", lambda: told.wanted("it", changed(name, "Wrong-pass1", new) is True, False))
    told.run("a change", lambda: told.wanted("it", changed(name, old, new), True))
    told.run("the KDC takes it", lambda: told.wanted("kinit", realm_inside.logs_in(name, new), True))
    told.run("used before", lambda: told.wanted("it", changed(name, new, old), "('Password change rejected: password used before', 4)"))
    told.run("beyond ASCII", lambda: told.wanted("it", changed(name, new, "Neues-Paßwort1"), True))
    told.run("and the KDC takes that", lambda: told.wanted("kinit", realm_inside.logs_in(name, "Neues-Paßwort1"), True))


if __name__ == "__main__":
    main()
