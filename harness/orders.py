"""One order after the other at the control socket of a service, in the midst of changes."""

import concurrent.futures
import threading

from harness.asking import request_now
from harness.controlling import OK, ask
from harness.serving import Client

# how often a client changes its password amid orders
CHANGES = 20


class Orders(threading.Thread):
    """Asks for one order after the other until it is ended, or one isn't answered well, such as when the service is gone.

    `order` makes each by its number; `answers` has what they were answered, an empty text for no answer.
    """

    def __init__(self, case, order, is_good, pause=0):
        super().__init__()
        self.case = case
        self.order = order
        self.is_good = is_good
        self.pause = pause
        self.is_over = threading.Event()
        self.answers = []
        self.last = OK

    def run(self):
        while self.is_good(self.last) and not self.is_over.is_set():
            order = self.order(len(self.answers))
            try:
                self.last = ask(self.case, order)
            except OSError:
                self.last = ""
            self.answers.append(self.last)
            self.is_over.wait(self.pause)

    def end(self):
        self.is_over.set()
        self.join()


def many_changes(case, number, name):
    """What a client is answered that changes this principal's password again and again; its requests are its number's alone."""
    client = Client(case.server)
    answers = []
    for turn in range(CHANGES):
        answers.append(client.ask(request_now(name, f"Pass-{turn:02}", 1 + CHANGES * number + turn)))
    client.close()
    return answers


def changed_amid(case, names, orders):
    """What each of these principals' clients is answered, side by side and while orders are carried out."""
    orders.start()
    with concurrent.futures.ThreadPoolExecutor(len(names)) as pool:
        found = list(pool.map(lambda it: many_changes(case, *it), enumerate(names)))
    orders.end()
    return found
