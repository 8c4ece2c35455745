"""What the records of a user make of the password, one after the other, while the user and an administrator change it.

A change has the next password that the user asked for, under the next version. What the KDC said, and the service took, has a
higher version, and is the key of

- the newest password, or the last that the user asked for: an agent writes it above what it finds, and may be killed before it
  says so;
- a password that an administrator set, or the one that the user had asked for before: an agent wrote it above what it found. One
  that was over before the newest one was asked for may come in front of that for a moment, if both sides were compared then: the
  newest one, or a later one, comes in front again, unless the service was killed before that was on its way, and so before
  anybody was told of it, since the service requires the KDC.

Whoever is told that a password is changed has it, until a later one is set.
"""

import math

from harness.journal import Adopt, Lift, Record
from tests.kdc.breaking import Password
from tests.kdc.crowd_cases import keys_in, keys_once
from tests.kdc.realms import FIRST


class Story:
    """Of one user; `set_there` are the passwords that the administrator set, in their order."""

    def __init__(self, user, set_there):
        self.asked = [Password(user.name, *it, math.inf) for it in zip(user.asked, user.begun)]
        self.set_there = set_there
        self.known = {keys_once(it.name, it.text): it for it in [*self.asked, *set_there]}
        self.answered = user.answered
        self.newest, self.version = Password(user.name, FIRST, 0, 0), 1
        self.changes = 0
        # what an older password came in front of, until it, or a later one, is in front again
        self.overtaken = None
        # what is wrong, a line each
        self.faults = []

    def take(self, record):
        """The next record."""
        found, kind = self.known.get(keys_in(record)), type(record)
        is_next = record.kvno == self.version + 1 or kind is not Record and record.kvno > self.version
        if found not in self.possible(kind) or not is_next:
            what = f"{kind.__name__.lower()} of version {record.kvno} has {found.text if found else 'no password'}"
            self.faults.append(f"{record.name}: {what} after version {self.version} with {self.newest.text}")
        self.look_for_overtaken(found)
        self.newest, self.version = found or self.newest, record.kvno

    def look_for_overtaken(self, found):
        if self.is_older(found):
            self.overtaken = self.overtaken or self.newest
        elif found and self.overtaken and found.begun >= self.overtaken.begun:
            self.overtaken = None

    def is_older(self, found):
        """Whether it was set, or was asked for by the same user, before the newest one was asked for."""
        if found in self.set_there:
            return found.ended < self.newest.begun
        return found in self.asked and self.newest in self.asked and found.begun < self.newest.begun

    def possible(self, kind):
        """The passwords that a record of this kind may have here."""
        if kind is Record:
            self.changes += 1
        former, last = (self.asked[max(0, count - 1) : max(0, count)] for count in (self.changes - 1, self.changes))
        return {Record: last, Lift: [self.newest], Adopt: [self.newest, *former, *last, *self.set_there]}.get(kind, [])

    def is_last(self):
        """Whether the newest password is the last that the user asked for, or that the administrator set, and none is overtaken that
        somebody was told of."""
        if self.overtaken:
            return self.overtaken.text not in self.answered
        return self.newest in self.asked[-1:] + self.set_there[-1:]
