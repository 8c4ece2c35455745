"""Lines that are changed at random, to an agent under sanitizers; and each allocation refused in turn."""

import mmap
import pathlib
import random
import re
import resource
import struct

from harness.realm import REALM
from tests.kdc.agent_case import AgentCase
from tests.kdc.agent_process import Agent, hexed, keys_of, preload, program_of, putting

LINES = 100_000
ENDED = "the agent has ended"
SANITIZERS = ["-fsanitize=address,undefined", "-fno-sanitize-recover=all", "-fno-omit-frame-pointer"]
# what the projects' libraries lose at the end
LOSSES = "leak:libkrb5\nleak:libkadm5srv\nleak:libhdb\nleak:libkdb5\nleak:db2.so\nleak:libasn1\nleak:libroken\nleak:libheimbase\n" \
         "leak:libgssrpc\nleak:libhcrypto\nleak:libhx509\nleak:libcom_err\n"
NAME = rb"[0-9a-f]{2}(?:[0-9a-f]{2})*(?:/[0-9a-f]{2}(?:[0-9a-f]{2})*)*"
REQUEST = re.compile(rb"list|list keys|get (%s)|put (%s) ([1-9][0-9]*) [0-9a-f]{64} [0-9a-f]{32}" % (NAME, NAME), re.S)


class AgentFaults(AgentCase):
    # ---- changed lines

    def is_request(self, line):
        """Whether it is of the form, as the agent's README has it."""
        found = REQUEST.fullmatch(line)
        if not found or len(line) > 1023:
            return False
        name, kvno = found[1] or found[2] or b"", found[3] or b"1"
        return len(name) <= 900 and int(kvno) <= 0xFFFFFFFF

    def changed(self, order, seeds):
        """A line that was changed in one place or some."""
        line = bytearray(order.choice(seeds))
        for _ in range(order.choice((1, 1, 1, 2, 5))):
            place = order.randrange(len(line) + 1)
            way = order.randrange(7)
            if way == 0 and place < len(line):
                line[place] = order.randrange(256)
            elif way == 1 and place < len(line):
                line[place] = order.choice(b"0123456789abcdef")
            elif way == 2:
                line[place:place] = bytes(order.choice(b" /09af\0\r\xff") for _ in range(order.choice((1, 2, 40, 1000))))
            elif way == 3:
                del line[place : place + order.choice((1, 2, 32))]
            elif way == 4:
                del line[place:]
            elif way == 5:
                line[place:] = order.choice(seeds)[place:]
            else:
                line[place:place] = line[: order.randrange(len(line) + 1)]
        return bytes(line).replace(b"\n", b" ")

    def test_changed_lines(self):
        """Each is answered where it is a request, and ends the connection where it isn't."""
        name = self.name()
        kind = "mit" if self.realm.KIND == "MIT" else "heimdal"
        program = program_of(self.realm, kind, *SANITIZERS)
        (self.realm.folder / "losses").write_text(LOSSES)
        more = {"ASAN_OPTIONS": "detect_leaks=1:abort_on_error=0:exitcode=99", "UBSAN_OPTIONS": "print_stacktrace=1",
                "LSAN_OPTIONS": f"suppressions={self.realm.folder}/losses:print_suppressions=0"}
        seeds = [it.encode() for it in (
            "list", "list keys", f"get {hexed(name)}", f"get {hexed('carol/ops')}", f"get {hexed('krbtgt/' + REALM)}",
            putting(name, 2, "A-pass"), putting(name, 30, "B-pass"), putting("krbtgt/" + REALM, 9, "C-pass"),
            putting("nobody", 3, "D-pass"),
        )]
        kept, known = self.state(f"krbtgt/{REALM}", "carol/ops", "alice"), set(self.kdc.listed())
        agent = Agent(self.realm, program=program, **more)
        agent.told("listening", 1)
        wrong, requests = self.feed(agent, random.Random(1), seeds)
        status = agent.stop()
        reports = [line for line in agent.all_lines if "ERROR: " in line or "runtime error" in line or "SUMMARY" in line]
        self.tell(f"{LINES} changed lines, {requests} of them requests: answered otherwise", wrong, [])
        self.tell("  status", status, 0)
        self.tell("  reports of the sanitizers", reports, [])
        self.tell("  other entries are as they were", self.state(f"krbtgt/{REALM}", "carol/ops", "alice") == kept)
        self.tell("  none is made", set(self.kdc.listed()) == known)

    def feed(self, agent, order, seeds):
        wrong, requests, connection = [], 0, None
        for _ in range(LINES):
            line = self.changed(order, seeds)
            good = self.is_request(line)
            requests += good
            connection = connection or agent.connected()
            connection.send(line + b"\n")
            answer = connection.answer()
            while answer and good and answer.split()[0] in ("has", "other") and line.startswith(b"list"):
                answer = connection.answer()
            if bool(answer) != good or answer is None:
                wrong.append((line, answer))
            if not answer:
                connection.connection.close()
                connection = None
            if len(wrong) > 5 or agent.process.poll() is not None:
                break
        return wrong, requests

    # ---- allocations

    def test_memory_of_reads(self):
        self.refused(self.refuse_reads, False)
        # what it says then needs no memory either
        self.refused(self.refuse_gets, True)

    def test_memory_of_puts(self):
        self.refused(self.refuse_puts, False)

    def test_memory_of_others(self):
        """What is never written stays as it was."""
        locked = self.name()
        self.kdc.lock_down(locked)
        never = [f"krbtgt/{REALM}", "kadmin/admin", "carol/ops", locked]
        kept, known = self.state(*never), set(self.kdc.listed())
        self.refused(lambda _: self.refuse_others(never), False)
        self.tell("what is never written is as it was", self.state(*never) == kept)
        self.tell("  none is made", {it for it in set(self.kdc.listed()) - known if not it.startswith("agentfaults")}, set())

    def refused(self, case, whole):
        """The case with each allocation refused that a request asks for: it alone, or with all after it."""
        self.whole, self.what = whole, "and all after it" if whole else "alone"
        control = self.realm.folder / "refusing"
        control.write_bytes(bytes(24))
        self.more = {"LD_PRELOAD": preload(self.realm, "agent_refusing"), "REFUSING": str(control)}
        with control.open("r+b") as file, mmap.mmap(file.fileno(), 24) as self.control:
            name = self.name()
            self.begin_anew()
            case(name)
            self.line.connection.close()
            self.tell("  status", self.agent.stop(), 0)

    def begin_anew(self):
        self.agent = Agent(self.realm, **self.more)
        self.agent.told("listening", 1)
        self.line = self.agent.connected()

    def refuse(self, number, whole):
        """That one from now on, which is counted from now on too; 0 for none."""
        self.control[:] = struct.pack("<QQQ", number, whole, 0)

    def refusing(self, ask, opens=False):
        """What `ask` gives with each allocation refused in turn, as long as one is; ENDED where the agent ends for it, as
        it says, and another one is started. Where it `opens`, the database is closed before."""
        for number in range(1, 100_000):
            if opens:
                self.refuse(1, False)
                self.line.ask(f"get {hexed('alice')}")
            self.refuse(number, self.whole)
            answer = ask()
            [asked] = struct.unpack("<Q", self.control[16:])
            self.refuse(0, False)
            if asked < number:
                return
            if answer in ("", ("", 0)):
                self.line.connection.close()
                answer = ENDED if self.agent.ended() == (1, ["listening", "no memory is left"]) else self.agent.ended()
                self.begin_anew()
            elif not opens:
                # it has closed the database
                self.line.ask(f"get {hexed('alice')}")
            yield answer

    def refuse_gets(self, name):
        self.refuse_one(lambda: self.line.ask(f"get {hexed(name)}"), f"has {hexed(name)} 1 {keys_of(name, 'Old-pass1')}",
                        f"failed {hexed(name)} no memory")

    def refuse_reads(self, name):
        self.refuse_gets(name)
        self.refuse_one(lambda: self.line.listed("list keys"), self.line.listed("list keys"), ("failed - no memory", 0))
        self.refuse_one(lambda: self.line.ask(f"get {hexed('nobody')}"), f"none {hexed('nobody')}",
                        f"failed {hexed('nobody')} no memory", opens=True)

    def refuse_one(self, ask, good, bad, opens=False):
        found = list(self.refusing(ask, opens))
        wrong = [it for it in found if it not in (bad, ENDED)]
        self.tell(f"{bad}: each of {len(found)} allocations refused {self.what}: neither that nor an end", wrong[:3], [])
        self.tell("  some were refused", len(found) > 3)
        self.tell("  then it is answered", ask() == good)

    def refuse_puts(self, name):
        """After each the entry is as before, or as after a change, in all that kadmin shows of it."""
        kvno = 1
        wrong, count, written = [], 0, 0
        password = "Old-pass1"
        before, after = self.shape(name), None

        def ask():
            return self.line.put(name, kvno + 1, f"Put-pass{kvno + 1}")

        asking = self.refusing(ask)
        while (answer := next(asking, None)) is not None:
            count += 1
            held, shape = self.held(name), self.shape(name)
            is_new = held == self.of(name, kvno + 1, f"Put-pass{kvno + 1}")
            is_old = kvno == 1 or held == self.of(name, kvno, password)
            written += is_new
            if answer in (ENDED, f"failed {hexed(name)} no memory") and (is_new or is_old):
                if is_new:
                    kvno, password = kvno + 1, f"Put-pass{kvno + 1}"
            else:
                wrong.append((count, answer, sorted(held)))
            after = shape if is_new and after is None else after
            if shape not in (before, after):
                wrong.append((count, shape))
            if len(wrong) > 3:
                break
        self.tell(f"put, each of {count} allocations refused {self.what}: neither failed nor an end, or an entry that is neither",
                  wrong, [])
        # where it was refused amid the write itself
        self.tell("  fewer than half are written all the same", written < count / 2)
        self.tell("  then one is written", self.line.put(name, 30000, "Last-pass1"), f"put {hexed(name)} 30000")
        self.tell("  the KDC's keys", self.held(name), self.of(name, 30000, "Last-pass1"))
        self.tell("  login", self.logs_in(name, "Last-pass1"), [True])

    def shape(self, name):
        """The entry without what is another at each change."""
        text = self.kdc.entry(name)
        return re.sub(r"(?m)(Last .*|Key: vno|Kvno:) ?.*$", "", re.sub(r"\[\d+\]", "", text))

    def refuse_others(self, never):
        for name in [*never, "nobody"]:
            found = list(self.refusing(lambda: self.line.put(name, 9, "Bad-pass9")))
            wrong = [it for it in found if it not in (ENDED, f"failed {hexed(name)} no memory")]
            self.tell(f"put {name}, each of {len(found)} allocations refused {self.what}: neither failed nor an end", wrong[:3], [])

    def limit(self, agent, more):
        """It gets only so much more than it has."""
        pages = int(pathlib.Path(f"/proc/{agent.process.pid}/statm").read_text().split()[0])
        limit = pages * mmap.PAGESIZE + more
        resource.prlimit(agent.process.pid, resource.RLIMIT_AS, (limit, limit))

    def test_memory_of_the_system(self):
        """The system gives no more from a moment on, which is another one each time: the agent goes on, and what it has
        begun it does."""
        name, kvno, failures, wrong = self.name(), 1, 0, []
        for more in range(0, 12 << 20, 1 << 19):
            with self.talking() as line:
                self.limit(line.agent, more)
                answers = [line.put(name, kvno + 1, f"System-pass{kvno}"), line.ask(f"get {hexed('nobody')}"), line.ask("list")]
                if answers[:2] == [f"put {hexed(name)} {kvno + 1}", f"none {hexed('nobody')}"] and answers[2].startswith("has "):
                    kvno += 1
                elif answers == [f"failed {it} no memory" for it in (hexed(name), hexed("nobody"), "-")]:
                    failures += 1
                else:
                    wrong.append((more, answers))
        self.tell("no memory from different moments on: neither failed nor answered", wrong, [])
        with self.talking() as line:
            line.ask(f"get {hexed(name)}")
            self.limit(line.agent, 1 << 20)
            kvno += 1
            self.tell("  nor after a request, which keeps what it has: put", line.put(name, kvno, f"System-pass{kvno - 1}"), f"put {hexed(name)} {kvno}")
        self.tell("  times it failed, and was answered", failures > 5 and kvno > 3)
        self.tell("  the KDC's keys", self.held(name), self.of(name, kvno, f"System-pass{kvno - 1}"))
