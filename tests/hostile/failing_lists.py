"""`serve` beside an agent at a KDC's database whose lists fail, lack names, or end in the middle; the agent is this script.

A list that fails, or a look at one name, holds up no change. That many names are gone is told once, until a list lacks few. What a
comparison was to put is forgotten with its connection, so that a password which is set meanwhile stays. An agent that hangs up
before it has answered is reported once. That changes are late is reported once, until one is confirmed. Many names that join at
once share a sync of the journal: that of the last one's record, which is refused if it fails.
"""


from harness.cases import main
from harness.controlling import wait_for
from harness.false_agent import COUNT, KEYS, Agent, hexed, listed, table
from harness.sample_realm import write_configuration
from harness.serving import CHANGED, Watch, both_requests, ServiceCase
from tests.hostile.agent_answers import ALICE, AT_FIRST, BOB, GONE, OTHERS

LONG = 60_000  # milliseconds
SOON = 1  # seconds in which a change is put that waits for nothing
# lists that fail before a change is asked for: by then the pause before the next one is longer than that
FAILURES = 6
MANY = [f"user{number}" for number in range(20)]
# names that join at once, beside a disk that takes so many milliseconds for a sync; seconds that a sync for each would take, and
# those in which they join all the same
JOINING = [f"user{number:02}" for number in range(60)]
SLOW = 250
ONE_BY_ONE = len(JOINING) * SLOW / 1000
TOGETHER = ONE_BY_ONE / 3
DOWN = "no connection to the KDC's agent; it is tried again"
FAILED = "the KDC's database can't be had: the disk is gone"
LATE = "the KDC did not have a change in time; more are not reported until one is confirmed"
SHORT = 300  # milliseconds


def start(case, wait=LONG, **words):
    case.log = case.folder / "log"
    agent = Agent(case)
    case.start(1, options=["--log", case.log, *agent.options(wait)], **words)
    return agent


def changed(case, link, client):
    """A change is put at once, and its reply comes."""
    watch, (alice, _) = Watch(), both_requests()
    client.send(alice)
    link.confirm("alice", 2)
    case.tell("the reply", client.told(alice), CHANGED)
    case.tell_within(SOON, watch)


def tell_lines(case, *wanted):
    lines, status = case.last_lines()
    path = case.folder / "agent"
    case.tell("told", [line for line in lines if line.startswith(str(path))], [f"{path}: {it}" for it in wanted])
    case.tell("status", status, 0)


class FailingLists(ServiceCase):
    def test_a_list_that_fails(self):
        agent, client = start(self), self.client()
        with agent.called() as link:
            for _ in range(FAILURES):
                link.say("failed - the disk is gone\n")
                link.is_asked("list keys")
            link.say("failed - the disk is gone\n")
            changed(self, link, client)
            tell_lines(self, FAILED)

    def test_a_name_of_which_a_look_fails(self):
        agent, client = start(self), self.client()
        with agent.called() as link:
            link.say(GONE)
            link.is_asked(f"get {BOB}")
            link.say(f"failed {BOB} the disk is gone\n")
            link.is_asked("list keys")
            link.say(GONE)
            link.is_asked(f"get {BOB}")
            link.say(f"none {BOB}\n")
            wait_for(lambda: table(self) == {"alice": 1})
            changed(self, link, client)
            tell_lines(self, FAILED)

    def test_a_KDC_that_lacks_many_names(self):
        write_configuration(self.server.configuration, ["alice", *MANY], iterations=COUNT)
        agent, client = start(self), self.client()
        with agent.called() as link:
            for said in (listed("alice"), listed("alice"), listed("alice", *MANY), listed("alice")):
                link.say(said)
                link.say("changed\n")
                link.is_asked("list keys")
            link.say(listed("alice"))
            changed(self, link, client)
            lacks = "the KDC lacks 20 of 21 principals; none is removed"
            tell_lines(self, lacks, lacks)

    def test_a_comparison_that_is_cut_off(self):
        """The KDC has other keys of bob's version, so the table's are to be put; the agent ends, and somebody sets a newer password."""
        agent, client = start(self), self.client()
        with agent.called() as link:
            link.say(f"has {ALICE} 1 {KEYS}\nhas {BOB} 1 {OTHERS}\nend 2\n")
            link.is_asked(f"put {BOB} 1 {KEYS}")
        with agent.called() as link:
            link.say(f"has {ALICE} 1 {KEYS}\nhas {BOB} 2 {OTHERS}\nend 2\n")
            wait_for(lambda: table(self) == {**AT_FIRST, "bob": 2})
            changed(self, link, client)
            tell_lines(self, DOWN)

    def test_an_agent_that_hangs_up_before_it_answers(self):
        agent, client = start(self), self.client()
        for _ in range(4):
            agent.called().end()
        with agent.called() as link:
            link.say(listed("alice", "bob"))
            changed(self, link, client)
            tell_lines(self, DOWN)

    def test_changes_that_are_late(self):
        """The first change is confirmed when its reply is gone, and the second one is late, too."""
        agent, client = start(self, wait=SHORT), self.client()
        with agent.in_step() as link:
            for name, request in zip(("alice", "bob"), both_requests()):
                client.send(request)
                link.is_to_put(name, 2)
                self.tell("the reply", client.told(request), CHANGED)
                link.say(f"put {hexed(name)} 2\n")
            tell_lines(self, LATE, LATE)

    def test_names_that_join_at_once(self):
        """They are there long before a sync for each could be over, and so is the change that comes after them."""
        agent, client = start(self, SLOW=SLOW), self.client()
        with agent.called() as link:
            watch = Watch()
            link.say(listed("alice", "bob", *JOINING))
            wait_for(lambda: len(table(self)) == 2 + len(JOINING))
            self.tell_within(TOGETHER, watch)
            (alice, _) = both_requests()
            client.send(alice)
            link.confirm("alice", 2)
            self.tell("the reply", client.told(alice), CHANGED)
            tell_lines(self)

    def test_a_sync_after_them_that_fails(self):
        """The first sync of the journal fails: it is that of the third of three names, and no change is taken any more."""
        agent, client = start(self, FAILS="sync 1 5"), self.client()
        with agent.called() as link:
            link.say(listed("alice", "bob", *JOINING[:3]))
            first, second, third = JOINING[:3]
            told = [f"adopted {first} kvno 1", f"adopted {second} kvno 1", f"refused adopt {third} kvno 1 text journal failed"]
            wait_for(lambda: told[-1] in self.log.read_text())
            self.tell("log", [it for it in told if it in self.log.read_text()], told)
            (alice, _) = both_requests()
            client.send(alice)
            self.tell("the reply", client.told(alice), "code 2 journal failed")
            self.last_lines()


if __name__ == "__main__":
    main(__doc__)
