"""How soon `serve` calls an agent at a KDC's database again, and when it gives one up; the agent is this script.

Each connection that ends by the agent's fault, or before a list was heard, doubles the next pause: that an agent answers lists
before it misspeaks doesn't help. After one with a list that ends otherwise the pause is a tenth of a second again. An agent that
owes an answer is given up after thirty seconds without a line of it; `changed` is none.
"""


from harness.cases import main, named
from harness.false_agent import Agent
from harness.serving import CHANGED, Watch, both_requests, ServiceCase

WAIT = 300  # milliseconds that a reply waits
# seconds in which calls are counted, and how many there are: at once, then after pauses of 0.1, 0.2, 0.4, 0.8 and 1.6 seconds
COUNTED, CALLS = 5, range(4, 8)
# and at least of an agent that is called again soon: after a tenth of a second, which is how often that is looked at, too
OFTEN = 15
# seconds in which the next call comes then
SOON = 0.5
ANSWER_TIME, LATER = 30, 33  # seconds
MISSPOKEN = "the KDC's agent said what it may not; it is called again"


def start(case):
    agent = Agent(case)
    case.start(1, options=agent.options(WAIT))
    return agent


def tell_end(case, client, is_misspoken):
    """The service answers the client, and has said whether the agent was at fault."""
    case.tell("the reply", client.ask(both_requests()[0]), CHANGED)
    lines, status = case.last_lines()
    case.tell("told", f"{case.folder / 'agent'}: {MISSPOKEN}" in lines, is_misspoken)
    case.tell("status", status, 0)


def seldom(case, ending, has_listed, is_misspoken):
    """The agent answers each list or not, and ends the connection like this."""
    # beside a connection the service looks ten times a second whether it is to call
    agent, client, watch, calls = start(case), case.client(), Watch(), 0
    while watch.spent() < COUNTED:
        with agent.in_step() if has_listed else agent.called() as link:
            calls += watch.spent() < COUNTED
            ending(case, link)
    agent.end()
    case.tell(f"calls in {COUNTED} s ({calls})", calls in CALLS, True)
    tell_end(case, client, is_misspoken)


def misspeaking(case, link):
    link.say("end 0\n")
    case.tell("the connection ends", link.is_ended(), True)


def hanging_up(_case, link):
    link.end()


def is_given_up(link):
    """Whether the connection ends within a second."""
    try:
        return not link.connection.recv(65_536)
    except TimeoutError:
        return False
    except ConnectionResetError:
        return True


class AgentCalls(ServiceCase):
    def test_an_agent_that_misspeaks_after_each_list(self):
        seldom(self, misspeaking, True, True)

    def test_an_agent_that_hangs_up_before_each_list(self):
        seldom(self, hanging_up, False, False)

    def test_an_agent_that_hangs_up_after_each_list(self):
        """The agent answers each list, and hangs up."""
        agent, client, watch = start(self), self.client(), Watch()
        for _ in range(OFTEN):
            agent.in_step().end()
        self.tell_within(COUNTED, watch)
        agent.end()
        tell_end(self, client, False)

    def test_an_agent_that_behaves_again(self):
        """The pauses have grown; after a connection with a list and without a fault the agent is called sooner."""
        agent, client = start(self), self.client()
        for _ in range(3):
            with agent.in_step() as link:
                misspeaking(self, link)
        watch = Watch()
        with agent.in_step() as link:
            self.tell(f"the pause before ({watch.spent():.2f} s)", watch.spent() > 0.3, True)
            link.say("changed\n")
            link.is_asked("list keys")
            link.end()
        watch = Watch()
        with agent.in_step():
            self.tell_within(SOON, watch)
            agent.end()
        tell_end(self, client, True)

    @named("an agent that says that something changed, and no answer")
    def test_an_agent_that_says_that_something_changed_and_no_answer(self):
        """The agent says each second that something changed, and never answers."""
        agent = start(self)
        with agent.called() as link:
            watch = Watch()
            link.connection.settimeout(1)
            while watch.spent() < LATER and not is_given_up(link):
                link.say("changed\n")
            agent.end()
        self.tell(f"given up after 30 s ({watch.spent():.1f})", ANSWER_TIME - 1 < watch.spent() < LATER, True)
        tell_end(self, self.client(), True)


if __name__ == "__main__":
    main(__doc__)
