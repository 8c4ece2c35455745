"""The messages of crates/cases_service (topic `stream`), a line each.

    python3 -m tests.model.messages
"""

from harness.command import Parser
from harness.wire import REALM, SERVICE, change_data, integer, request

OTHER_KEY = SERVICE[:-1] + b"\x5b"
# each with its client, its password, and what is other in it
MESSAGES = [
    ("first", b"alice", b"New-pass2", {}),
    ("second", b"alice", b"Other-pass3", {}),
    ("bobs", b"bob", b"New-pass2", {}),
    ("same", b"alice", b"Old-pass1", {}),
    ("other_service_key", b"alice", b"New-pass2", {"service": OTHER_KEY}),
    ("without_subkey", b"alice", b"New-pass2", {"subkey": False}),
    ("no_ap_req", b"alice", b"New-pass2", {"ap_first": 0x6F}),
    ("forged_private", b"alice", b"New-pass2", {"forged": True}),
    ("word1", b"alice", b"Word-one1", {}),
    ("word2", b"alice", b"Word-two2", {}),
    ("word3", b"alice", b"Word-three3", {}),
    ("word4", b"alice", b"Word-four4", {}),
    ("word1_again", b"alice", b"Word-one1", {}),
    ("word4_again", b"alice", b"Word-four4", {}),
    ("admin_sets_bobs", b"admin", b"New-pass2", {"target": b"bob", "initial": False}),
    ("admin_sets_alices", b"admin", b"New-pass2", {"target": b"alice", "initial": False}),
    ("names_herself", b"alice", b"New-pass2", {"target": b"alice", "initial": False}),
    ("empty_password", b"alice", b"", {}),
    ("later", b"alice", b"New-pass2", {"ctime": 1_000_401}),
    ("old", b"alice", b"New-pass2", {"old": True}),
    ("old_without_initial", b"alice", b"New-pass2", {"old": True, "initial": False}),
    ("old_looks_like_data", b"alice", change_data(b"abc", None), {"old": True}),
    ("abc", b"alice", b"abc", {}),
    ("old_abc", b"alice", b"abc", {"old": True}),
    ("old_empty", b"alice", b"", {"old": True}),
    ("old_no_utf8", b"alice", b"\xff\xfeNo-utf8", {"old": True}),
    ("old_names_bob", b"alice", change_data(b"New-pass2", b"bob"), {"old": True}),
    ("old_by_admin", b"admin", b"New-pass2", {"old": True}),
    ("old_forged_private", b"alice", b"New-pass2", {"old": True, "forged": True}),
    ("old_no_ap_req", b"alice", b"New-pass2", {"old": True, "ap_first": 0x6F}),
    ("old_names_bob_alone", b"alice", change_data(b"New-pass2", b"bob", None), {"old": True}),
    ("old_names_realm", b"alice", change_data(b"New-pass2", None, REALM), {"old": True}),
    ("old_names_bob_further", b"alice", change_data(b"New-pass2", b"bob", further=integer(7)), {"old": True}),
    ("old_names_none_further", b"alice", change_data(b"New-pass2", None, further=integer(7)), {"old": True}),
    ("old_names_bob_trailing", b"alice", change_data(b"New-pass2", b"bob") + b"!", {"old": True}),
    ("old_names_none", b"alice", change_data(b"New-pass2", None), {"old": True}),
    ("old_admin_sets_bobs", b"admin", change_data(b"New-pass2", b"bob"), {"old": True}),
    ("old_names_bob_forged", b"alice", change_data(b"New-pass2", b"bob"), {"old": True, "forged": True}),
]


def cases():
    """The messages of the cases, by name: the authenticator's time, and the request."""
    for cusec, (what, client, password, changes) in enumerate(MESSAGES, 1):
        ctime = changes.get("ctime", 1_000_100)
        yield what, f"{ctime}.{cusec}", request(client, password, cusec, **changes)
    # the authenticator of `first` once more
    yield "old_first", "1000100.1", request(b"alice", b"New-pass2", 1, old=True)


def main():
    Parser(__doc__, None, "it can't be done").parse_args()
    for what, when, message in cases():
        print("message", what, when, message.hex())


if __name__ == "__main__":
    main()
