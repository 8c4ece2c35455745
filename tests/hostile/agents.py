"""`serve` whose replies to changes wait for an agent at a KDC's database, which is this script.

What goes over the socket is what agent/README.md has. A reply waits until the agent has said that the KDC has the change, for
`--kdc-wait` at most, also where the connection is lost meanwhile, and not at all where there was none. A reply that waited in vain
has a line of the log, and one on standard error. With `--require-kdc` requests are refused while the agent isn't there or doesn't
answer, and no reply goes out whose change it hasn't confirmed. After whatever it may not say the connection is ended, and made
again; no key changes by that, and no answer. What it may say changes the table: a new name, a newer version, a name that is gone.
"""

import contextlib
import time

from harness.cases import add, main, named
from harness.controlling import OK, rewrite, status, told, wait_for
from harness.false_agent import COUNT, KEYS, Agent, hexed, keys_held, keys_of, listed, table
from harness.log_lines import messages
from harness.sample_realm import write_configuration
from harness.serving import CHANGED, REPLAYED, Watch, both_requests, ServiceCase
from tests.hostile.agent_answers import ALICE, AT_FIRST, BOB, CAROL, GONE, HAS, LISTS, OTHERS, SAID

LONG, MIDDLING, SHORT = 60_000, 1_500, 300  # milliseconds
SOON, COMPARED = 5, 2  # seconds: for a reply that doesn't wait, and for a comparison that nothing asks for to begin
MOST = 10_000  # principals that a table has at the most
TOLD = "the KDC did not have a change in time; more are not reported until one is confirmed"
DOWN = "no connection to the KDC's agent; it is tried again"
AWAY = "code 2 error 60 KDC out of reach"
MISSPOKEN = "the KDC's agent said what it may not; it is called again"
UNCONFIRMED = "worker - peer 127.0.0.1 client - target - code - error - kvno - text not confirmed by the KDC: change "


def start(case, wait, connections=1, options=()):
    """A service with a log, whose replies wait for so many milliseconds, and its agent."""
    case.log = case.folder / "log"
    agent = Agent(case)
    case.start(connections, options=["--log", case.log, *agent.options(wait), *options])
    return agent


@contextlib.contextmanager
def asked_for_alice(case, agent):
    """alice asks for a change, and the agent is asked for it: her client and her request, the agent's link, and a watch that
    has run since she asked."""
    alice, _ = both_requests()
    client = case.client()
    with agent.in_step() as link:
        watch = Watch()
        client.send(alice)
        link.is_to_put("alice", 2)
        yield client, alice, link, watch


def tell_unconfirmed(case, tally, changes, *told):
    """So many changes weren't confirmed, each with a line of the log; on standard error there is this, in whatever order."""
    lines, status = case.last_lines()
    wanted = sorted(f"{case.folder / 'agent'}: {it}" for it in told)
    case.tell("its end", (lines[0], sorted(set(lines[1:])), status), (tally, wanted, 0))
    logged = [line.split(" ", 1)[1] for line in messages(case.log.read_text()) if "not confirmed" in line]
    case.tell("of the log", [line.startswith(UNCONFIRMED) for line in logged], [True] * changes)


# ---- answers to a change

def saying(case, said, is_fault, count, kvno=2):
    """The agent says this a tenth of a second after it was asked, and isn't there any more. The client isn't answered
    before. It is then, if that confirms its change; else once it has waited. So many changes aren't confirmed, and the table has
    that version, or lacks the name."""
    agent = start(case, MIDDLING if count else LONG)
    alice, _ = both_requests()
    client = case.client()
    with agent.in_step() as link:
        agent.end()
        watch = Watch()
        client.send(alice)
        link.is_to_put("alice", 2)
        time.sleep(0.1)
        case.tell("no reply yet", client.is_silent(), True)
        link.say(said)
        if is_fault:
            case.tell("the connection ends", link.is_ended(), True)
        case.tell("the reply", client.told(alice), CHANGED)
        case.tell("whether it has waited", watch.spent() >= MIDDLING / 1_000, bool(count))
        # what the desk wasn't asked before the connection ends is forgotten
        wait_for(lambda: table(case).get("alice") == kvno)
    told = [DOWN] + [TOLD] * count + [MISSPOKEN] * is_fault
    # what the KDC has otherwise is one more entry
    tell_unconfirmed(case, f"entries {1 if kvno == 2 else 2} changes 1", count, *told)


def keeping(case, said):
    """The agent says this, and no more: the reply comes once it has waited, and not much later."""
    with asked_for_alice(case, start(case, SHORT)) as (client, alice, link, watch):
        link.say(said)
        case.tell("the reply", client.told(alice), CHANGED)
        case.tell("not before 0.3 s", watch.spent() >= SHORT / 1_000, True)
        case.tell_within(SOON, watch)
        case.tell("the table", table(case), {"alice": 2, "bob": 1})
        tell_unconfirmed(case, "entries 1 changes 1", 1, TOLD)


# ---- `--require-kdc`

def required(case, wait, connections):
    return start(case, wait, connections, ["--require-kdc"])


def required_and_refused(case, said):
    """The agent says this, so the KDC doesn't have the change: its connection ends at once, without a reply."""
    with asked_for_alice(case, required(case, LONG, 1)) as (client, alice, link, watch):
        link.say(said)
        case.tell("no reply", client.told(alice), "no reply")
        case.tell_within(SOON, watch)
    case.tell("its end", case.last_lines()[1], 0)


def hanging_up(case, agent):
    """The agent hangs up while a reply waits, and is there again: it is asked for the same, and the reply comes once it has
    confirmed that."""
    with asked_for_alice(case, agent) as (client, alice, _, _):
        pass
    with agent.called(before=f"put {ALICE} 2 {keys_of('alice', 'New-pass2')}") as link:
        case.tell("no reply yet", client.is_silent(), True)
        link.say(f"put {ALICE} 2\n")
        case.tell("the reply", client.told(alice), CHANGED)
        link.is_asked("list keys")
        tell_unconfirmed(case, "entries 1 changes 1", 0, DOWN)


# ---- what the KDC has

def having(case, said, wanted, asked=(), answers=''):
    """The KDC has this: the agent is asked that, answers so, and then the table has those names and versions."""
    agent = start(case, LONG)
    client = case.client()
    with agent.called() as link:
        link.say(said)
        if asked:
            link.is_asked(*asked)
            link.say(answers)
        wait_for(lambda: table(case) == wanted)
        link.say("changed\n")
        link.is_asked("list keys")
        case.tell("the table", table(case), wanted)
    tell_stays(case, client)


def tell_stays(case, client):
    """The service answers: bob changes his password, if he is there."""
    _, bob = both_requests()
    case.tell("a reply comes", client.ask(bob) != "no reply", True)
    case.last_lines()


def listing(case, said):
    """The agent says this of the KDC's names, which it may not: the connection ends, and the table is as it was. The next
    one is called, and a change goes its way."""
    agent = start(case, LONG)
    client = case.client()
    with agent.called() as link:
        link.say(said)
        case.tell("the connection ends", link.is_ended(), True)
    case.tell("the table", table(case), AT_FIRST)
    alice, _ = both_requests()
    with agent.in_step() as link:
        client.send(alice)
        link.confirm("alice", 2)
        case.tell("the reply", client.told(alice), CHANGED)
        tell_unconfirmed(case, "entries 1 changes 1", 0, DOWN, MISSPOKEN)


def stalling(case, said):
    """The agent says this of the KDC's names and then nothing: a change is answered once it has waited."""
    agent = start(case, SHORT)
    client = case.client()
    alice, _ = both_requests()
    with agent.called() as link:
        link.say(said)
        watch = Watch()
        case.tell("the reply", client.ask(alice), CHANGED)
        case.tell_within(SOON, watch)
        case.tell("the table", table(case), {"alice": 2, "bob": 1})
        tell_unconfirmed(case, "entries 1 changes 1", 1, TOLD)


class Agents(ServiceCase):
    def test_an_agent_that_keeps_silent(self):
        keeping(self, "")

    def test_an_agent_that_says_half_a_line(self):
        keeping(self, f"put {ALICE}")

    def test_an_agent_that_says_that_something_changed(self):
        keeping(self, "changed\n" * 1_000)

    def test_an_agent_whose_database_is_locked(self):
        """The database is locked at first: the change is asked for until the KDC has it, and the reply waits."""
        agent = start(self, LONG)
        alice, _ = both_requests()
        client = self.client()
        with agent.in_step() as link:
            client.send(alice)
            for _ in range(3):
                link.is_to_put("alice", 2)
                self.tell("no reply yet", client.is_silent(), True)
                link.say(f"failed {ALICE} locked\n")
            link.confirm("alice", 2)
            self.tell("the reply", client.told(alice), CHANGED)
            tell_unconfirmed(self, "entries 1 changes 1", 0)

    def test_an_agent_that_refuses(self):
        """The agent never writes this name: the reply comes at once, and that is told."""
        with asked_for_alice(self, start(self, LONG)) as (client, alice, link, watch):
            link.say(f"refused {ALICE} lockdown\n")
            self.tell("the reply", client.told(alice), CHANGED)
            self.tell_within(SOON, watch)
            tell_unconfirmed(self, "entries 1 changes 1", 0, "the KDC's agent refuses alice lockdown")

    @named("an agent that isn't there")
    def test_an_agent_that_isn_t_there(self):
        """Nobody is at the socket's path: the reply doesn't wait, though it might for a minute, and is none that waited in vain."""
        self.log = self.folder / "log"
        self.start(1, options=["--log", self.log, "--kdc", self.folder / "agent", "--kdc-wait", LONG])
        alice, _ = both_requests()
        watch = Watch()
        self.tell("the reply", self.client().ask(alice), CHANGED)
        self.tell_within(SOON, watch)
        tell_unconfirmed(self, "entries 1 changes 1", 0, DOWN)

    def test_an_agent_that_hangs_up(self):
        """The agent hangs up while a reply waits, and nobody is there any more: the reply comes once it has waited."""
        agent = start(self, MIDDLING)
        alice, _ = both_requests()
        client = self.client()
        watch = Watch()
        with agent.in_step() as link:
            agent.end()
            client.send(alice)
            link.is_to_put("alice", 2)
        self.tell("the reply", client.told(alice), CHANGED)
        self.tell("not before it has waited", watch.spent() >= MIDDLING / 1_000, True)
        self.tell_within(SOON, watch)
        tell_unconfirmed(self, "entries 1 changes 1", 1, DOWN, TOLD)

    def test_an_agent_that_hangs_up_and_comes_back(self):
        hanging_up(self, start(self, LONG))

    def test_an_agent_that_starts_again(self):
        """One writes a change and ends, another one the next change. Between the changes the first one is sent once more and
        refused: the agent isn't asked about that. The second one finds a KDC that has the first change, and is asked for no more."""
        agent = start(self, LONG)
        alice, bob = both_requests()
        client = self.client()
        with agent.in_step() as link:
            client.send(alice)
            link.confirm("alice", 2)
            self.tell("the reply", client.told(alice), CHANGED)
            self.tell("the same again", client.ask(alice), REPLAYED)
        with agent.called() as link:
            link.say(f"has {ALICE} 2 {keys_of('alice', 'New-pass2')}\nhas {BOB} 1 {KEYS}\nend 2\n")
            client.send(bob)
            link.confirm("bob", 2)
            self.tell("the reply", client.told(bob), CHANGED)
            tell_unconfirmed(self, "entries 3 changes 2", 0, DOWN)

    def test_an_agent_at_a_full_history(self):
        """The change that fills its history waits as any other does, and so does the next history's."""
        self.realm(max_entries=1)
        agent = start(self, LONG)
        client = self.client()
        with agent.in_step() as link:
            for name, sent in zip(("alice", "bob"), both_requests()):
                client.send(sent)
                time.sleep(0.2)
                self.tell(f"no reply yet, {name}", client.is_silent(), True)
                link.confirm(name, 2)
                self.tell("the reply", client.told(sent), CHANGED)
            lines, status = self.last_lines()
        self.tell("its end", (lines[:2], status), (["entries 1 changes 1"] * 2, 0))

    @named("a required agent that isn't there")
    def test_a_required_agent_that_isn_t_there(self):
        """Nobody is at the socket's path: requests are refused, and have no entry. Once the agent is there, they are decided; the
        same one, too, since it was not used up."""
        self.log = self.folder / "log"
        agent = Agent(self)
        agent.end()
        self.start(1, options=["--log", self.log, *agent.options(LONG), "--require-kdc"])
        alice, bob = both_requests()
        client = self.client()
        watch = Watch()
        for sent in (alice, bob, alice):
            self.tell("refused", client.ask(sent), AWAY)
        self.tell_within(SOON, watch)
        agent.listen()
        with agent.in_step() as link:
            client.send(alice)
            link.confirm("alice", 2)
            self.tell("the reply", client.told(alice), CHANGED)
            tell_unconfirmed(self, "entries 1 changes 1", 0, DOWN)
        logged = [line for line in messages(self.log.read_text()) if "out of reach" in line]
        fields = "worker 0 peer 127.0.0.1 client - target - code 2 error 60 kvno - text KDC out of reach"
        self.tell("of the log", [line.split(" ", 1)[1] for line in logged], [fields] * 3)

    def test_a_required_agent_that_keeps_silent(self):
        """The agent doesn't answer: the connection ends without a reply once that has waited, and the next request is refused. Once
        the agent has answered, requests are decided; the former one is used up."""
        _, bob = both_requests()
        with asked_for_alice(self, required(self, SHORT, 3)) as (client, alice, link, watch):
            self.tell("no reply", client.told(alice), "no reply")
            self.tell("not before it has waited", watch.spent() >= SHORT / 1_000, True)
            self.tell_within(SOON, watch)
            client = self.client()
            self.tell("refused", client.ask(bob), AWAY)
            link.say(f"put {ALICE} 2\n")
            wait_for(lambda: client.ask(alice) == REPLAYED)
            client = self.client()
            client.send(bob)
            link.confirm("bob", 2)
            self.tell("the reply", client.told(bob), CHANGED)
            lines, status = self.last_lines()
            self.tell("changes", (lines[0].split()[2:], status), (["changes", "2"], 0))

    def test_a_required_agent_that_refuses(self):
        required_and_refused(self, f"refused {ALICE} lockdown\n")

    def test_a_required_agent_that_says_that_there_is_no_such_name(self):
        required_and_refused(self, f"none {ALICE}\n")

    def test_a_required_agent_that_hangs_up_and_comes_back(self):
        hanging_up(self, required(self, LONG, 1))

    @named("a list that doesn't come")
    def test_a_list_that_doesn_t_come(self):
        stalling(self, "")

    def test_a_list_of_half_a_line(self):
        stalling(self, f"has {ALICE}")

    def test_a_list_without_an_end(self):
        stalling(self, f"has {ALICE} 1 {KEYS}\n")

    def test_a_list_that_was_read_before_a_change(self):
        """The agent has read the database before a change is decided, and says then what it read: a newer version, of a password that
        was set there before. The change is put all the same, above that; and once it is there, it is in front in the table, too."""
        agent = start(self, LONG)
        alice, _ = both_requests()
        client = self.client()
        with agent.called() as link:
            client.send(alice)
            wait_for(lambda: table(self)["alice"] == 2)
            others = listed("bob").replace("end 1", "end 2")
            link.say(f"has {ALICE} 3 {OTHERS}\n" + others)
            link.is_to_put("alice", 2)
            self.tell("no reply yet", client.is_silent(), True)
            link.say(f"put {ALICE} 4\n")
            self.tell("the reply", client.told(alice), CHANGED)
            link.is_asked("list keys")
            link.say(f"has {ALICE} 4 {keys_of('alice', 'New-pass2')}\n" + others)
            wait_for(lambda: table(self)["alice"] == 4)
            newest = [line.split()[4] for line in keys_held(self) if line.startswith("alice@EXAMPLE.COM 4 ")]
            self.tell("the table's newest keys", " ".join(newest), keys_of("alice", "New-pass2"))
        tell_stays(self, client)

    def test_a_list_of_the_version_before_a_change(self):
        """The agent has read the database before a change is decided, and says then what it read: the version before. One key is on
        its way to the KDC, and it is put once."""
        agent = start(self, LONG, options=["--control", "control"])
        alice, _ = both_requests()
        client = self.client()
        with agent.called() as link:
            client.send(alice)
            wait_for(lambda: table(self)["alice"] == 2)
            link.say(listed("alice", "bob"))
            link.is_to_put("alice", 2)
            self.tell("keys on their way", status(self)["kdc-behind"], "1")
            link.say(f"put {ALICE} 2\nchanged\n")
            self.tell("the reply", client.told(alice), CHANGED)
            link.is_asked("list keys")
        tell_stays(self, client)

    def test_principals_that_are_counted(self):
        """`status` tells how many principals the table has, with those that the KDC brings and without those that it takes."""
        agent = start(self, LONG, options=["--control", "control"])
        with agent.called() as link:
            link.say(f"has {CAROL} 5 {OTHERS}\n" + listed("alice", "bob").replace("end 2", "end 3"))
            wait_for(lambda: status(self)["principals"] == "3")
            link.say("changed\n")
            link.is_asked("list keys")
            link.say(GONE)
            link.is_asked(f"get {BOB}")
            link.say(f"none {BOB}\n")
            link.is_asked(f"get {CAROL}")
            link.say(f"none {CAROL}\n")
            wait_for(lambda: status(self)["principals"] == "1")
            self.tell("the table then", table(self), {"alice": 1})
        self.tell("stop", told(self, "stop"), (OK, 0))

    def test_a_KDC_with_more_principals_than_a_table(self):
        """The KDC has two names more than a table may have. That they don't join is told, once, and the agent is asked for no other
        list by it. Once a principal is gone, one of them joins, and that the other one doesn't is told."""
        names = ["alice", "bob", *(f"user{number}" for number in range(MOST - 2))]
        write_configuration(self.server.configuration, names, iterations=COUNT)
        agent = start(self, LONG)
        client = self.client()
        *others, last = names
        with agent.called() as link:
            link.say(listed(*names, "carol", "dave"))
            time.sleep(COMPARED)
            self.tell("it is asked nothing", link.is_silent(), True)
            self.tell("the table has neither", {"carol", "dave"} & table(self).keys(), set())
            link.say("changed\n")
            link.is_asked("list keys")
            link.say(listed(*others, "carol", "dave"))
            link.is_asked(f"get {hexed(last)}")
            link.say(f"none {hexed(last)}\n")
            link.is_asked("list keys")
            link.say(listed(*others, "carol", "dave"))
            wait_for(lambda: "carol" in table(self))
            found = table(self)
            self.tell("one has joined, the other one hasn't", (len(found), "dave" in found, last in found), (MOST, False, False))
        self.tell("a reply comes", client.ask(both_requests()[1]) != "no reply", True)
        lines, _ = self.last_lines()
        told_of = [f"{self.folder / 'agent'}: {name} is not adopted from the KDC: there are 10000 principals already" for name in ("carol", "dave")]
        self.tell("told", [line for line in lines if "not adopted" in line], told_of)

    def test_names_that_a_reload_includes(self):
        """A reload reads which of the KDC's names are the service's: one that is included then joins. A fault there refuses it."""
        names = '[kdc]\nexclude = ["carol"]\n[policy]'
        rewrite(self, change=[("[policy]", names)])
        agent = start(self, LONG, options=["--control", "control"])
        has = f"has {CAROL} 5 {OTHERS}\n" + listed("alice", "bob").replace("end 2", "end 3")
        with agent.called() as link:
            link.say(has)
            link.say("changed\n")
            link.is_asked("list keys")
            link.say(has)
            self.tell("carol is excluded", table(self), AT_FIRST)
            rewrite(self, change=[("[policy]", names.replace('["carol"]', '"carol"'))])
            self.tell("a fault", told(self, "reload"), ("error: [kdc] exclude must be a list of texts\n", 1))
            rewrite(self)
            self.tell("reload", told(self, "reload"), (OK, 0))
            link.is_asked("list keys")
            link.say(has)
            wait_for(lambda: table(self) == {**AT_FIRST, "carol": 5})
        self.tell("stop", told(self, "stop"), (OK, 0))


for what, *how in SAID:
    add(Agents, f"an agent that says {what}", saying, *how)
for what, said in LISTS:
    add(Agents, f"a list with {what}", listing, said)
for what, *how in HAS:
    add(Agents, f"a KDC with {what}", having, *how)


if __name__ == "__main__":
    main(__doc__)
