"""The packages under a real systemd: a container whose first process it is, by systemd-nspawn. MIT's KDC alone."""

import subprocess

from tests.packages import mit
from tests.packages.in_root import InRoot
from tests.packages.steps import Life, block

# seconds for all of it
PATIENCE = 900
UNIT = """\
[Unit]
Description=Tries the packages
After=krb5-kdc.service krb5-admin-server.service

[Service]
Type=oneshot
ExecStart=/bin/sh /opt/try/inside
ExecStopPost=/usr/bin/systemctl --no-block poweroff
StandardOutput=append:/opt/try/output
StandardError=append:/opt/try/output
TimeoutStartSec=800

[Install]
WantedBy=multi-user.target
"""
# what the scripts in it call
HELPERS = r"""
export LC_ALL=C.UTF-8 HOME=/root DEBIAN_FRONTEND=noninteractive
cd /root
S=boddrelyn F=boddrelyn-agent-mit J=/var/lib/boddrelyn/journal
check() {
    what=$1
    shift
    if "$@" > /opt/try/last 2>&1; then echo "ok: systemd: $what"; else echo "FAILED: systemd: $what: $(cat /opt/try/last)"; fi
}
says() { for _ in $(seq 100); do journalctl --no-pager -q -u "$1" | grep -q "$2" && return 0; sleep 0.2; done; journalctl --no-pager -u "$1"; return 1; }
is() { [ "$(systemctl show -p "$2" --value "$1")" = "$3" ] || { systemctl status "$1" --no-pager; return 1; }; }
changed() { printf '%s\n' "$2" "$3" "$3" | kpasswd "$1"; }
logs_in() { printf '%s\n' "$2" | kinit "$1"; }
pid() { systemctl show -p MainPID --value "$1"; }
new_pid() { [ "$(pid "$1")" != "$2" ] && [ "$(pid "$1")" != 0 ]; }
# the service calls an agent that was away after half a minute at the latest
wait_for() { for _ in $(seq 200); do "$@" > /dev/null 2>&1 && return 0; sleep 0.2; done; "$@"; }
files() { find /etc/boddrelyn /var/lib/boddrelyn /var/log/boddrelyn /run/boddrelyn /run/boddrelyn-agent -printf '%M %u:%g %p\n' | sort > /opt/try/found; diff /opt/try/files /opt/try/found; }
none() { ! "$@"; }
# until there is /opt/try/over; a change that is refused by the service or the KDC, rather than by nobody who listens, is kept
changing() {
    old=$2 n=0
    until [ -e /opt/try/over ]; do
        if changed "$1" "$old" "Changing-pass$n" > /opt/try/change 2>&1; then old=Changing-pass$n n=$((n + 1))
        else grep -q 'Cannot contact any KDC' /opt/try/change || cat /opt/try/change >> /opt/try/refused; fi
        echo "$n" > /opt/try/count
    done
}
status() { chpw_server control --socket /run/boddrelyn/control status | grep -x "$1"; }
"""
SCRIPT = HELPERS + r"""
check "install" dpkg -i /opt/try/0/*.deb
check "the units are without a fault" sh -c "systemd-analyze verify --man=no $S.service $F.service 2>&1 | tee /dev/stderr | grep -c boddrelyn | grep -qx 0"
for it in $S $F; do
    check "$it is enabled" systemctl is-enabled $it
    systemctl start $it
    check "$it is skipped without a configuration" is $it ConditionResult no
    check "$it isn't failed" is $it ActiveState inactive
done
sh -eu /opt/try/first > /opt/try/said 2>&1
check "README.Debian: import and check" grep "ok: principals 0" /opt/try/said
check "port 464 is taken: it says so" says $S "127.0.0.1:464: in use"
check "port 464 is taken: it is given up" wait_for is $S Result exit-code
systemctl stop $S
sed -i "s/# here/$(cat /opt/try/gives-up)/" /etc/krb5kdc/kdc.conf
check "kadmind gives it up" systemctl restart krb5-admin-server
systemctl reset-failed $S
check "start" systemctl start $F $S
check "it listens" says $S "listening on 127.0.0.1:464"
check "no process of the service's user may trace it" sh -c '[ "$(stat -c %u /proc/'"$(pid $S)"'/mem)" = 0 ]'
for it in $S $F; do check "$it: its system calls are filtered" grep -q "Seccomp:.2" "/proc/$(pid $it)/status"; done
check "the agent runs" says $F "listening"
check "the service has found it" wait_for status "kdc connected"
check "the KDC's users are the service's" wait_for sh -c "chpw_server table --config /etc/boddrelyn/realm.toml --journal $J | grep '^alice kvno 1 '"
check "the files are those of the start by hand" files
check "the first start isn't quiet" status "quiet-until -"
check "kpasswd" changed alice Old-pass1 New-pass1
check "kinit, at once" logs_in alice New-pass1
check "the KDC has it" status "kdc-behind 0"
changing bob Old-pass2 &
for it in 1 2 3; do sleep 2; check "restart $it amid changes" systemctl restart $S; check "restart $it: not quiet" status "quiet-until -"; done
sleep 2; touch /opt/try/over; wait
check "restarts amid changes: there were some" sh -c '[ "$(cat /opt/try/count)" -gt 10 ]'
check "restarts amid changes: none was refused" none cat /opt/try/refused
check "restarts amid changes: each is in the table" sh -c "chpw_server table --config /etc/boddrelyn/realm.toml --journal $J | grep \"^bob kvno $(($(cat /opt/try/count) + 1)) \""
systemctl reset-failed $S
check "reload" systemctl reload $S
check "logrotate" logrotate --force /etc/logrotate.d/boddrelyn
check "the log was opened again" grep log-reopened /var/log/boddrelyn/log
cp $J /opt/try/journal; A=$(pid $S) B=$(pid $F)
check "upgrade" dpkg -i /opt/try/1/*.deb
check "upgrade: the service is restarted" new_pid $S $A
check "upgrade: the agent is restarted" new_pid $F $B
check "upgrade: the journal stays" cmp $J /opt/try/journal
check "upgrade: it answers" wait_for chpw_server control --socket /run/boddrelyn/control status
A=$(pid $S); kill -9 $A
check "a kill: it is started again" wait_for new_pid $S $A
check "a kill: it answers" wait_for chpw_server control --socket /run/boddrelyn/control status
systemctl reset-failed $S
A=$(pid $S); runuser -u boddrelyn -- chpw_server control --socket /run/boddrelyn/control stop
check "an end with status 0: it is started again" wait_for new_pid $S $A
check "an end with status 0: it answers" wait_for chpw_server control --socket /run/boddrelyn/control status
check "stop" systemctl stop $S $F
check "stop: with status 0" is $S ExecMainStatus 0
check "stop: the agent with status 0" is $F ExecMainStatus 0
check "stop: not failed" is $S Result success
check "start again" systemctl start $F $S
check "it runs" wait_for chpw_server control --socket /run/boddrelyn/control status
check "remove" dpkg -r $F $S
check "remove: it is stopped" none pidof chpw_server
check "remove: the agent is stopped" none pidof kdc_mit
check "purge" dpkg -P $F $S
cp /opt/try/last /opt/try/said
check "purge: it names what goes" grep "removed: $J" /opt/try/said
check "purge: no file is left" none sh -c "find / -xdev -not -path '/opt/*' -not -path '/proc/*' -not -path '/var/log/journal/*' '(' -user boddrelyn -o -name '*boddrelyn*' ')' | grep ."
echo "systemd: the end"
"""


class InContainer(InRoot):
    """MIT's KDC in a root that systemd boots."""

    def setUp(self):
        super().setUp()
        self.realm.write()

    def boot(self, script):
        """Boots the root with systemd as its first process, which runs the script, and takes the lines of its checks."""
        for name in ("usr/local/bin/systemctl", "etc/machine-id"):
            self.root.path(name).unlink(missing_ok=True)
        self.root.path("/etc/machine-id").write_text("")
        self.root.path("/opt/try/inside").write_text(script)
        self.root.path("/etc/systemd/system/try.service").write_text(UNIT)
        self.root.must("/usr/bin/systemctl", "enable", "try.service", SYSTEMD_OFFLINE="1")
        self.root.leave()
        run_to_its_end(self.root)
        output = self.root.path("/opt/try/output")
        text = output.read_text(errors="replace") if output.is_file() else ""
        for line in text.splitlines():
            if line.startswith("ok: "):
                self.tell(line[4:], True)
            elif line.startswith("FAILED: "):
                self.tell(line[8:], False)
            elif not line.startswith("systemd: the end"):
                print(line)
        self.tell("systemd: the container ran to its end", "systemd: the end" in text)


class UnderSystemd(InContainer):
    def test_life_under_systemd(self):
        """The files of a start are those that it leaves where no systemd runs."""
        self.root.path("/opt/try/first").write_text("cd /root\n" + block("First start"))
        self.root.path("/opt/try/gives-up").write_text(mit.GIVES_UP)
        self.root.path("/opt/try/files").write_text("".join(f"{it}\n" for it in Life.left[mit.KIND]))
        self.boot(SCRIPT)


def run_to_its_end(root):
    words = ["--quiet", "--register=no", "--keep-unit", "--private-network", "--boot", "--directory", root.folder]
    with root.path("/opt/try/boot").open("w") as out:
        process = subprocess.Popen(["systemd-nspawn", *words], stdin=subprocess.DEVNULL, stdout=out, stderr=out,
                                   start_new_session=True)
        try:
            process.wait(PATIENCE)
        except subprocess.TimeoutExpired:
            print("the container didn't end")
            process.terminate()
            process.wait()
