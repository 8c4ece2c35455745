"""Faults while sixteen users change their passwords: of the agent, the database and the service.

Behind each of them the journal has each change that was answered, and the KDC the table's keys. No reply
comes later after its record than `--kdc-wait`, `--later` and what it takes where nobody
listens at the socket, which is tried first. crowd.py has how that is seen.
"""

import contextlib
import functools
import itertools
import random
import time

from harness.ahead import AHEAD
from tests.kdc.breaking import going_on
from tests.kdc.crowd_cases import OURS, USERS, WAIT, CrowdCases
from tests.kdc.daemons import comes
from tests.kdc.false_agents import KINDS, FalseAgent, says_nothing
from tests.kdc.served import FOUND, TOLD

# an agent that is to die lives for so long at most once it listens, and somebody has the database
LIFE = 0.5
LOCKED = 4
# users rest for so long at most between two changes, so that each meets another agent
REST = 2
# so many times its changes are those of all cases
CASES = 14
# of the wait: a reply that comes before didn't wait
MOST_AT_ONCE = 0.9
# of the changes, with each of those that aren't agents: one in so many
FALSE = 8


class FaultCases(CrowdCases):
    def test_faults(self):
        """About `changes` altogether; a reply may come `later` milliseconds later than it should."""
        self.changes = max(USERS, self.options.changes // CASES)
        self.later = self.options.later / 1000
        self.begin("faults", 3, random.random())
        # until a change has been tried without a wait: seconds from its record to its reply
        self.itself = 0
        self.in_turn([self.late, self.none, self.killed, self.locked, self.amid, self.false, self.restarted])

    def meanwhile(self, what, fault, count):
        """The changes, while the fault goes on in a thread; the longest from a record to its reply, in seconds."""
        before = self.files.unconfirmed()
        with going_on(fault):
            held, others = self.crowd.make(count)
        lines = self.files.unconfirmed() - before
        longest = max(held, default=0)
        self.tell(f"{what}, {count} changes: other answers", others, [])
        print(f"  {1000 * longest:.0f} ms from a record to its reply at most; not confirmed {lines}", flush=True)
        self.tell("  no longer than it may take", longest <= self.itself + WAIT / 1000 + self.later)
        return longest, lines

    def nobody(self, over):
        """No fault at all."""

    def is_carried(self, types=None):
        """An agent comes: the journal is what was asked for, and the KDC has the table's keys, and no others of these types, by
        default of all."""
        with self.files.with_agent():
            self.keys_are_the_tables(self.files, self.names, types)
        self.tell_changes()

    # ---- the cases

    def none(self):
        with self.files.with_agent():
            _, lines = self.meanwhile("no fault", self.nobody, self.changes)
            self.tell("  not confirmed", lines, 0)
        self.is_carried()

    def late(self):
        """Nobody listens; then an agent starts."""
        self.itself, lines = self.meanwhile("no agent", self.nobody, self.changes)
        self.tell("  replies that waited in vain", lines, 0)
        with contextlib.ExitStack() as stack:
            self.meanwhile("an agent starts late", lambda _: self.starts(stack), self.changes)
            _, lines = self.meanwhile("  it is there", self.nobody, USERS)
            self.tell("  not confirmed", lines, 0)
        self.is_carried()

    def starts(self, stack):
        time.sleep(0.3)
        stack.enter_context(self.files.with_agent())

    def killed(self):
        """One agent after the other, each killed a step later than the one before (dying.c)."""
        self.crowd.rest = REST
        kills = functools.partial(self.breaking.kills_agents, steps=itertools.count(1, 3), life=LIFE)
        self.meanwhile("agents killed by kill -9", kills, 2 * self.changes)
        self.crowd.rest = 0
        print(f"  {len(self.breaking.agents)} agents", flush=True)
        self.is_carried()

    def locked(self):
        """Somebody has the database for longer than a reply waits."""
        with self.files.with_agent():
            _, lines = self.meanwhile(f"the database is locked for {LOCKED} seconds", self.locks, self.changes)
            self.tell("  some were not confirmed", lines > 0)
            self.tell("  and free again: in step", self.files.is_in_step())
            _, lines = self.meanwhile("  changes then", self.nobody, USERS)
            self.tell("  not confirmed", lines, 0)
        self.is_carried()

    def locks(self, over):
        with self.realm.locked():
            time.sleep(LOCKED)

    def amid(self):
        """An administrator changes passwords of the same users at the KDC."""
        with self.files.with_agent():
            self.crowd.rest = REST
            administers = functools.partial(self.breaking.administers, pause=REST / 10)
            self.meanwhile("an administrator changes them, too", administers, self.changes)
            self.crowd.rest = 0
            print(f"  {len(self.breaking.set)} changes of an administrator", flush=True)
            self.tell("  in step", self.files.is_in_step())
        # what an administrator has set stays as kadmin made it, with Heimdal's other types
        self.is_carried(OURS)

    def false(self):
        """What listens at the socket is no agent."""
        for answer, when in KINDS:
            what = answer.__name__.replace("_", " ")
            count = max(USERS, self.changes // FALSE)
            with FalseAgent(self.files.socket, answer) as agent:
                self.tell(f"an agent that {what} is found", comes(lambda: agent.asks > 0 or self.files.is_in_step(0), FOUND))
                longest, lines = self.meanwhile(f"an agent that {what}", self.nobody, count)
            self.tell("  it was asked", agent.asks > 0)
            if when == "waits":
                self.tell("  some waited", longest > MOST_AT_ONCE * WAIT / 1000)
                self.tell("  all in vain", lines, count)
        self.is_carried()

    def restarted(self):
        """The service is killed while replies are held back, and comes again."""
        told = self.breaking.kill_service()
        self.tell("the service is killed: it had told of replies that waited in vain", f"{self.files.socket}: {TOLD}" in told)
        self.files.start()
        self.crowd.ahead = AHEAD
        # within the wait of the first changes
        kills = functools.partial(self.breaking.kills_service, soon=0.9 * WAIT / 1000)
        with FalseAgent(self.files.socket, says_nothing):
            self.meanwhile("the service is killed, its replies held back", kills, 3 * USERS)
            self.tell("  some replies were lost", self.crowd.lost > 0)
        self.is_carried()
        with self.files.with_agent():
            self.meanwhile("the service is killed, with an agent", kills, self.changes)
        self.is_carried()
        print(f"  {len(self.breaking.services)} kills, {self.crowd.lost} replies were lost", flush=True)
