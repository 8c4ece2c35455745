"""All at once: sixteen users change their passwords while agents, the service and the KDC are killed, and an administrator sets
passwords of the same users. The service requires the KDC, so that whoever is told that a password is changed has it there.

At the end the KDC has the table's keys, and the journal leads to them: of each user it has the changes that were asked for, in
their order, and between them what the KDC said. stories.py has what that may be.
"""

import functools
import itertools
import random
import signal
import time

from harness.ahead import AHEAD
from harness.journal import Record
from tests.kdc.breaking import going_on
from tests.kdc.crowd_cases import OURS, USERS, CrowdCases, keys_in, keys_once
from tests.kdc.served import MISSPOKEN
from tests.kdc.stories import Story

# how many passwords of each user are remembered: one whose reply was lost is among them still when it is asked for again
DEPTH = 16
# seconds that a user rests between two changes at most, so that the service finds time to compare both sides
REST = 1
# an agent lives for so many seconds at most, and is killed at one of so many steps, if it comes there: each change has some
LIFE = 3
STEPS = 400
# seconds between two passwords that the administrator sets, at most
PAUSE = 0.3
# seconds within which the service and the KDC are killed for the first time
SOON = 2


class StormCases(CrowdCases):
    def test_storm(self):
        """Whoever is killed, and when, is drawn from the seed."""
        seed = random.randrange(1_000_000) if self.options.seed is None else self.options.seed
        print(f"seed {seed}", flush=True)
        random.seed(seed)
        self.begin("storm", DEPTH, seed, ["--require-kdc"])
        self.storm(max(USERS, self.options.storm))
        self.tell_ends()
        with self.files.with_agent():
            self.keys_are_the_tables(self.files, self.names, OURS)
        records = self.tell_changes()
        self.tell_answered(records)
        self.tell_newest(self.told_stories(records))

    def storm(self, changes):
        self.crowd.ahead, self.crowd.rest = AHEAD, REST
        breaking, draw = self.breaking, self.breaking.drawn("steps")
        steps = (draw.randint(1, STEPS) for _ in itertools.count())
        begun = time.monotonic()
        with going_on(
            functools.partial(breaking.kills_agents, steps=steps, life=LIFE),
            functools.partial(breaking.kills_service, soon=SOON),
            functools.partial(breaking.kills_kdc, soon=SOON),
            functools.partial(breaking.administers, pause=PAUSE),
        ):
            _, others = self.crowd.make(changes)
        self.tell(f"{changes} changes in a storm: other answers", others, [])
        killed = f"{len(breaking.agents)} agents, {len(breaking.services)} services and {len(breaking.kdcs)} KDCs were killed"
        print(f"  {killed}, {len(breaking.set)} passwords set by an administrator, {self.crowd.lost} replies lost, "
              f"{time.monotonic() - begun:.0f} seconds", flush=True)

    def tell_ends(self):
        """Each has ended by kill -9 and not by itself, and nobody has said what may not be said."""
        breaking = self.breaking
        self.tell("  how they ended", {*breaking.agents, *breaking.services, *breaking.kdcs}, {int(signal.SIGKILL)})
        self.tell("  a stranger logs in each time that the KDC has come again", all(breaking.logins))
        wrong = [line for line in breaking.told if MISSPOKEN in line]
        wrong += [line for line in breaking.agents_told if "no request" in line or "too long" in line]
        self.tell("  lines that neither side may say", wrong, [])

    def tell_answered(self, records):
        """Each change that was answered has its record."""
        made = {(it.name, *keys_in(it)) for it in records if type(it) is Record}
        answered = [(name, text) for name, user in self.crowd.users.items() for text in user.answered]
        lost = [it for it in answered if (it[0], *keys_once(*it)) not in made]
        self.tell(f"  {len(answered)} of them were answered: those without a record", lost, [])

    def told_stories(self, records):
        """What the records say of each user."""
        stories = {}
        for name, user in self.crowd.users.items():
            stories[name] = Story(user, [it for it in self.breaking.set if it.name == name])
        for record in records:
            stories[record.name].take(record)
        said = sum(type(it) is not Record for it in records)
        faults = [fault for story in stories.values() for fault in story.faults]
        self.tell(f"  and {said} records of what the KDC said: records that don't follow", faults, [])
        return stories

    def tell_newest(self, stories):
        """The password that the records of each user lead to is the one that counts."""
        newest = {name: story.newest.text for name, story in stories.items()}
        others = [newest[name] for name, story in stories.items() if not story.is_last()]
        self.tell("  newest passwords that are neither the last asked for nor the last set", others, [])
        wanted = {(name, key.hex()) for name, text in newest.items() for key in keys_once(name, text)}
        found = {(name, key) for name, _, _, key in self.files.newest_keys(self.names)}
        self.tell("  the table's newest keys are those of the newest passwords", found == wanted)
        refused = [name for name, text in newest.items() if not self.realm.kinit(name, text)]
        self.tell("  users who don't log in by them", refused, [])
