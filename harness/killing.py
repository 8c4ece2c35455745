"""A service that is killed in the midst of changes and of orders at its control socket."""

import random
import threading
import time

from harness.controlling import start
from harness.serving import CHANGED, START, Client, request

# how long after the first answer a service is killed, at the most
LONGEST_RUN = 0.5
# seconds of the service's quiet time
QUIET = 300


class Changer(threading.Thread):
    """Changes a principal's password by one connection until the service is gone: what it asked, in order, and how many
    of these were answered."""

    def __init__(self, case, name, run_number, second):
        super().__init__()
        self.client = Client(case.server)
        self.name = name
        self.run_number = run_number
        self.second = second
        self.asked = []
        self.answered = 0
        self.last = CHANGED

    def run(self):
        while self.last == CHANGED:
            self.asked.append(f"{self.name}-Run{self.run_number}-Pass{len(self.asked)}")
            try:
                sent = request(self.name, self.second, self.asked[-1], len(self.asked), starts=self.second - 60)
                self.last = self.client.ask(sent)
            except OSError:
                self.last = "no reply"
            self.answered += self.last == CHANGED
        self.client.close()


def killed_amid(case, number, clock, orders):
    """The run of this number, which ends in the midst of changes and of what another thread orders: its changers, what the
    orders were answered, and what was wrong with it."""
    second = START + 1_000 * number
    clock.set(second)
    start(case, connections=1_000_000, workers=4, CLOCK=clock.file)
    clock.set(second + QUIET + 1)
    changers = [Changer(case, f"user{it}", number, second + QUIET + 1) for it in range(4)]
    for thread in (*changers, orders):
        thread.start()
    while not any(it.answered for it in changers) and any(it.is_alive() for it in changers):
        time.sleep(0.001)
    time.sleep(random.uniform(0, LONGEST_RUN))
    early = [it.last for it in (*changers, orders) if not it.is_alive()]
    case.server.end()
    for thread in (*changers, orders):
        thread.join()
    case.server.process.communicate()
    return changers, orders.answers, early
