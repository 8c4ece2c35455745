"""Samba's own tests of a kpasswd service (samba.tests.krb5.kpasswd_tests, of Debian's python3-samba), unchanged.

What they need of an Active Directory is put in its place here: users are principals of an MIT KDC, tickets are made with the key
of kadmin/changepw by Samba's encoders, and a password counts as changed if the KDC takes it. A failed assertion becomes a note,
and the test goes on.
"""

import os
import sys
import unittest

os.environ.update(SERVER="127.0.0.1", DC_SERVER="127.0.0.1", STRICT_CHECKING="1")

from samba.tests.krb5 import kcrypto, kpasswd_tests
from samba.tests.krb5 import rfc4120_pyasn1 as asn1
from samba.tests.krb5.kdc_base_test import KDCBaseTest
from samba.tests.krb5.raw_testcase import KerberosTicketCreds, RawKerberosTest
from samba.tests.krb5.rfc4120_constants import KU_TICKET, NT_PRINCIPAL, NT_SRV_INST

import realm_inside
import told

SERVICE, TGS = "kadmin/changepw", f"krbtgt/{realm_inside.REALM}"
AES256 = 18
# bits of TicketFlags: initial and pre-authent
INITIAL = {9: "1", 10: "1"}
# of an Active Directory alone: names whose case is changed, tickets of its KDC for others than the service, and a right on oneself
LEFT_OUT = ("realm_case", "ticket_lifetime", "ticket_tgs", "requester_sid", "set_target_princ_and_realm_access")


class Account:
    """What the tests ask of credentials."""

    def __init__(self, name, password=realm_inside.PASSWORD, key=None):
        self.name, self.password, self.key = name, password, key

    def get_username(self):
        return self.name

    def get_realm(self):
        return realm_inside.REALM

    def update_password(self, password):
        self.password = password


class Nothing:
    """Settings of a directory that there isn't."""

    def __getattr__(self, _):
        return lambda *_: None


class Tests(kpasswd_tests.KpasswdTests):
    def setUp(self):
        self.notes = []
        super().setUp()

    # ---- in place of an Active Directory

    def get_samdb(self):
        return Nothing()

    def _get_creds(self, expired=False):
        return Account(realm_inside.user("samba", *(["-pwexpire", "2020-01-01"] if expired else [])))

    def get_cached_creds(self, **_):
        return self._get_creds()

    def of(self, principal):
        kvno, key = realm_inside.keys(principal)[AES256]
        return Account(principal, key=self.SessionKey_create(AES256, key, kvno))

    def get_krbtgt_creds(self, **_):
        return self.of(TGS)

    def get_admin_creds(self, **_):
        return self.of("admin")

    def get_dc_creds(self, **_):
        return self.of("host/dc.example.com")

    def get_mock_rodc_krbtgt_creds(self, **_):
        return Account(TGS, key=self.SessionKey_create(AES256, os.urandom(32), 1 << 16 | 1))

    def get_krbtgt_checksum_key(self):
        return None

    def TicketDecryptionKey_from_creds(self, creds, etype=None):
        return creds.key or self.of(creds.name).key

    def get_tgt(self, creds, sname=None, fresh=False, **_):
        """For the service it's made; another one shows that the KDC takes the password."""
        if sname is not None:
            return self.made(creds, SERVICE, sname, INITIAL)
        if not realm_inside.logs_in(creds.name, creds.password):
            self.notes.append("the KDC doesn't take the new password")
        return self.made(creds, TGS, self.PrincipalName_create(NT_SRV_INST, TGS.split("/")), INITIAL)

    def get_service_ticket(self, tgt, *_, **__):
        return self.made(tgt.account, SERVICE, self.get_kpasswd_sname(), {})

    def made(self, creds, principal, sname, flags):
        session, key = self.RandomKey(kcrypto.Enctype.AES256), self.of(principal).key
        part = {
            "flags": "".join(flags.get(it, "0") for it in range(32)), "key": session.export_obj(), "crealm": realm_inside.REALM,
            "cname": self.PrincipalName_create(NT_PRINCIPAL, creds.name.split("/")),
            "transited": {"tr-type": 1, "contents": b""},
            "authtime": self.get_KerberosTime(), "starttime": self.get_KerberosTime(), "endtime": self.get_KerberosTime(offset=300),
        }
        ticket = {"tkt-vno": 5, "realm": realm_inside.REALM, "sname": sname}
        found = KerberosTicketCreds(ticket, session, crealm=part["crealm"], cname=part["cname"], srealm=realm_inside.REALM,
                                    sname=sname, decryption_key=key, ticket_private=part)
        found.account = creds
        return self.sealed(found, key)

    def sealed(self, ticket, key):
        text = self.der_encode(ticket.ticket_private, asn1Spec=asn1.EncTicketPart())
        ticket.ticket["enc-part"] = self.EncryptedData_create(key, KU_TICKET, text)
        return ticket

    def modified_ticket(self, ticket, new_ticket_key=None, modify_fn=None, **_):
        if modify_fn:
            ticket.ticket_private = modify_fn(ticket.ticket_private)
        return self.sealed(ticket, new_ticket_key or ticket.decryption_key)

    # ---- assertions that are noted

    def assertEqual(self, first, second, msg=None):
        if first != second:
            self.notes.append(f"{plain(first)} and not {plain(second)}")

    def assertIn(self, member, container, msg=None):
        if member not in container:
            self.notes.append(f"{plain(member)} and none of {', '.join(map(plain, container))}")


def plain(value):
    return value.decode(errors="replace").strip() if isinstance(value, bytes) else str(value)


class Result(unittest.TestResult):
    def stopTest(self, test):
        name = test._testMethodName.removeprefix("test_kpasswd_")
        faults = [text.strip().splitlines()[-1] for it, text in self.failures + self.errors if it is test]
        told.tell(name, dict.fromkeys([*test.notes, *faults]))


def main():
    for it in ("admin", "host/dc.example.com"):
        realm_inside.ran("kadmin.local", "addprinc", "-randkey", it)
    names = unittest.TestLoader().getTestCaseNames(Tests)
    suite = unittest.TestSuite(Tests(it) for it in names if it.startswith("test_kpasswd_") and not any(word in it for word in LEFT_OUT))
    suite.run(Result())


if __name__ == "__main__":
    main()
