"""The tasks of docs/ADMIN.md: each block of commands is run as it is printed, in a container whose first process is systemd.

A block is one whose info string is `sh task`. `BLOCKS` has the order in which they are run, what is typed, and what has to be so
afterwards; a block of ADMIN that isn't named there, or one that is named and isn't in ADMIN, is a failure. MIT's KDC alone.
"""

import dataclasses
import re
import shlex

from harness.command import TOP
from tests.packages.container import HELPERS, InContainer

ADMIN = TOP / "docs/ADMIN.md"
LOG, CHECK = "/var/log/boddrelyn/log", "boddrelyn-check"
STATUS = "runuser -u boddrelyn -- chpw_server control --socket /run/boddrelyn/control status"
TABLE = "chpw_server table --config /etc/boddrelyn/realm.toml --journal /var/lib/boddrelyn/journal"
# somebody else at the port
OTHER = "perl -MIO::Socket::INET -e '$it = IO::Socket::INET->new(LocalAddr => \"127.0.0.1:464\", Listen => 1) or die; sleep 100'"
# kadmind's socket at port 464 of every address, as the system tells it
KADMIND = "00000000:01D0 00000000:0000 0A"
# an address that others could ask
ADDRESS = "printf '[Match]\\nName=lo\\n[Network]\\nAddress=10.9.0.1/32\\n' > /etc/systemd/network/lo.network; systemctl start systemd-networkd"
# a client whose clock is ahead of a quiet time, but for what names a configuration of its own
AHEAD = "export LD_PRELOAD=/opt/try/ahead.so KRB5_CONFIG=/etc/krb5-ahead.conf; sleep 4; "
OTHER_ADDRESS = "sed 's/127.0.0.1:464/10.9.0.1:464/' /etc/krb5.conf > /opt/try/other.conf; export KRB5_CONFIG=/opt/try/other.conf"
# at 127.0.0.1 alone, as at first
ALONE = "sed -i 's/--listen [^ ]* //g' /etc/default/boddrelyn; systemctl restart boddrelyn"


@dataclasses.dataclass(frozen=True)
class Block:
    """The block of that number below a heading: where it is run, what is typed, what is done before it, and, by name, the
    commands that have to succeed after it. `ahead` is for one in a quiet time: it and they run with a clock that is ahead."""

    heading: str
    number: int = 0
    folder: str = "/root"
    typed: str = ""
    before: str = ""
    ahead: bool = False
    after: dict = dataclasses.field(default_factory=dict)


def waits(command):
    return f"wait_for sh -c {shlex.quote(command)}"


BLOCKS = (
    Block("From nothing to a running realm", folder="/opt/try/0", after={
        "it listens": "says boddrelyn 'listening on 127.0.0.1:464'",
        "kadmind runs beside it": "is krb5-admin-server ActiveState active",
        "the KDC's users are the service's": waits(f"{TABLE} | grep '^bob kvno 1 '"),
        "there is no rule": "chpw_server check --config /etc/boddrelyn/realm.toml", "nobody is refused": "status 'quiet-until -'",
    }),
    Block("From nothing to a running realm", 1, typed="Old-pass1\nNew-pass1\nNew-pass1\nNew-pass1\n", after={
        "kpasswd": "grep 'Password changed' /opt/try/printed", "a ticket": "klist -s",
    }),
    Block("Let in users of other hosts", before=ADDRESS, after={
        "it listens there": "says boddrelyn 'listening on 10.9.0.1:464'", "nobody is refused": "status 'quiet-until -'",
        "kpasswd": f"({OTHER_ADDRESS}; changed alice New-pass1 Newer-pass1)",
        "the log has the client's address": f"grep ' peer 10.9.0.1 client alice@' {LOG}",
    }),
    Block("Let in users of other hosts", 1, before=ALONE, after={
        "through it": f"({OTHER_ADDRESS}; changed alice Newer-pass1 short) 2>&1 | grep 'password too short'",
    }),
    Block("Add a user", typed="Carol-pass1\nCarol-pass1\n", after={
        "adopted": waits(f"grep 'adopted carol kvno 1' {LOG}"), "kpasswd": "changed carol Carol-pass1 Carols-pass2",
    }),
    Block("Add a user", 1, after={"in the table": f"{TABLE} | grep '^web/admin kvno 1 '"}),
    Block("Remove a user", after={"removed": waits(f"grep 'removed carol' {LOG}")}),
    Block("Reset a password"),
    Block("Reset a password", 1, after={
        "it is told": "grep 'code 0 password changed' /opt/try/printed",
        "the log has who did it": f"grep ' client helpdesk@EXAMPLE.COM target bob@EXAMPLE.COM code 0 ' {LOG}",
        "the KDC has it": "kadmin.local getprinc bob | grep 'Key: vno 2,'",
        "bob has to change it": "kadmin.local getprinc bob | grep REQUIRES_PWCHANGE",
    }),
    Block("Change the configuration", after={
        "it counts": "changed alice Newer-pass1 New-pass2 2>&1 | grep 'password too short'",
    }),
    Block("New keys of kadmin/changepw", after={
        "the KDC has them": "kadmin.local getprinc kadmin/changepw | grep 'Key: vno 2,'",
        "kpasswd": "changed alice Newer-pass1 Newest-pass1",
    }),
    Block("Keep logs for a year", after={
        "logrotate": "logrotate --debug /etc/logrotate.d/boddrelyn", "a year": "grep 'rotate 366' /etc/logrotate.d/boddrelyn",
    }),
    Block("Keep logs for a year", 1, before="logrotate --force /etc/logrotate.d/boddrelyn", after={
        "who did it": "grep ' client helpdesk@' /opt/try/printed",
    }),
    Block("Monitor", after={
        "it tells of an agent that is down": f"systemctl stop boddrelyn-agent-mit; {waits(f'{CHECK} | grep -x ' + shlex.quote('kdc down'))}",
        "with status 2": f'sh -c "{CHECK}; [ \\$? = 2 ]"',
        "and no longer": f"systemctl start boddrelyn-agent-mit; {waits(CHECK)}",
    }),
    Block("Back up", before=f"{TABLE} > /opt/try/table", after={
        "the copies are root's alone": "sh -c '[ $(stat -c %a /var/backups/boddrelyn/journal) = 600 ]'",
    }),
    Block("Back up", 1, before="systemctl stop boddrelyn; rm /etc/boddrelyn/realm.toml; runuser -u boddrelyn -- rm /var/lib/boddrelyn/journal", after={
        "the table is back": f"{TABLE} | diff /opt/try/table -", "it runs": waits(f"{STATUS} | grep -x 'kdc connected'"),
    }),
    Block("Start a new journal", after={
        "the table stays": f"{TABLE} | sed '$d' | diff - /opt/try/principals", "the journal is new": f"{TABLE} | tail -n 1 | grep 'changes 0'",
        "it runs": waits(f"{STATUS} | grep -x 'kdc connected'"),
    }, before="sed '$d' /opt/try/table > /opt/try/principals"),
    Block("Upgrade", folder="/opt/try/1", after={
        "it is the later one": "sh -c \"dpkg-query -W -f '\\${Version}' boddrelyn | grep -- '-1'\"",
        "it runs": waits(f"{STATUS} | grep -x 'kdc connected'"),
    }),
    Block("Log to the journal of systemd", after={"the log is there": "says boddrelyn 'service started principals'"}),
    Block("A start failed", before=f"systemctl stop boddrelyn; {OTHER} & other=$!; sleep 1; systemctl start boddrelyn; wait_for is boddrelyn ActiveState failed",
          after={"it says why": "grep '127.0.0.1:464: in use' /opt/try/printed"}),
    Block("A start failed", 1, before="kill $other; wait $other", after={"it runs": waits(f"{STATUS} | grep -x ok")}),
    Block("Go back to kadmind", after={
        "the service is gone": "none pidof chpw_server", "it listens": f"wait_for grep '{KADMIND}' /proc/net/tcp",
        "kpasswd at kadmind": "changed alice Newest-pass1 Kadmind-pass1",
        "kvno goes on": "kadmin.local getprinc alice | grep 'Key: vno 5,'",
    }),
)


def printed():
    """The blocks of ADMIN, by heading and number."""
    found, heading, number = {}, None, 0
    for match in re.finditer(r"^### (?P<heading>[^\n]+)$|^```sh task\n(?P<text>.*?)^```$", ADMIN.read_text(), re.MULTILINE | re.DOTALL):
        if match["heading"]:
            heading, number = match["heading"], 0
        else:
            found[heading, number] = match["text"]
            number += 1
    return found


def script(texts, where):
    """What runs the blocks one after the other, and looks what has come of each."""
    lines = [HELPERS]
    for count, block in enumerate(BLOCKS):
        text = texts.get((block.heading, block.number))
        if text is None:
            continue
        name = f"ADMIN, {block.heading}" + (f", {block.number + 1}" if block.number else "")
        for kind, words in (("block", text), ("typed", block.typed)):
            where.path(f"/opt/try/{kind}-{count}").write_text(words)
        # a monitor asks where it is told
        lines += [block.before] if block.before else []
        clock = AHEAD if block.ahead else ""
        words = f"sh -eu /opt/try/block-{count} < /opt/try/typed-{count} > /opt/try/printed 2>&1"
        lines.append(f"run() ( {clock}cd {block.folder}; {words} || {{ cat /opt/try/printed; exit 1; }} )")
        lines.append(f"check {shlex.quote(name)} run")
        for what, command in block.after.items():
            lines += [f"after() ( {clock}{command} )", f"check {shlex.quote(f'{name}: {what}')} after"]
    return "\n".join([*lines, 'echo "systemd: the end"', ""])


class Tasks(InContainer):
    def test_tasks(self):
        texts = printed()
        named = [(it.heading, it.number) for it in BLOCKS]
        self.tell("ADMIN: each block is run, and each that is run is there", sorted(texts), sorted(named))
        client = self.root.path("/etc/krb5.conf")
        client.write_text(re.sub(r" *kpasswd_server.*\n", "", client.read_text()))
        self.boot(script(texts, self.root))
