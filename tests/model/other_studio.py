"""Another studio that comes between: how often a studio would find it by the counters, on tests/model/model.py.

A studio has joined an encoder, some messages were applied, and some wait that were not; then its connection is gone. Another one joins
the encoder and sends some. The first comes again and goes on: it sends what waits, each once the one before is answered. What the
encoder answers by a reply that it kept of the other's is told as applied, and is not on the air.

With a probe each connection begins with an empty message under the counter 126 before that of the last that waits. An encoder that
nobody else drove has its reply, whatever of what waits it has applied. Where it answers nothing another studio was there, and nothing
is told."""

import collections
import itertools

APPLIED = range(255)  # of the first studio; from 255 on the counters come again
WAITING = range(1, 9)
SENT = range(1, 31)  # by the other
BEFORE = 126  # so many numbers before the last that waits is the probe's


def counter_of(number):
    """The counter of a message, which are numbered from 1 from the join on; before it are the counters of the pass."""
    return (number - 1) % 255 + 1


def after(states, count):
    """The state of an encoder that was joined and has applied so many messages since; the states are those of tests/model/passes.py."""
    return states.first[255 + count % 255]


def is_told_wrongly(states, applied, waiting, sent, probes):
    """Whether something that the encoder only answered again is told as applied."""
    state, last = after(states, sent), applied + waiting
    if probes:
        is_answered, state = states.steps[state][counter_of(last - BEFORE)]
        if not is_answered:
            return False
    for number in range(applied + 1, last + 1):
        is_answered, behind = states.steps[state][counter_of(number)]
        if not is_answered or behind == state:
            return is_answered
        state = behind
    return False


def count(states, probes):
    """How many cases are told wrongly, and in how many of those the other stopped under a counter that waits."""
    cases = collections.Counter()
    for applied, waiting, sent in itertools.product(APPLIED, WAITING, SENT):
        if is_told_wrongly(states, applied, waiting, sent, probes):
            cases["wrong"] += 1
            cases["within what waits"] += sent in map(counter_of, range(applied + 1, applied + waiting + 1))
    return cases


def is_alone(states, applied, waiting, more):
    """Whether an encoder that nobody else drove answers the probe and stays as it is, where so many of what waits were applied too."""
    state = after(states, applied + more)
    return states.steps[state][counter_of(applied + waiting - BEFORE)] == (True, state)


def figures(states):
    """How many cases there are, how many are told wrongly without a probe, and how many with one."""
    assert after(states, 0) == states.joined == states.first[510], "a join is not what 255 messages leave"
    for applied, waiting in itertools.product(APPLIED, WAITING):
        assert all(is_alone(states, applied, waiting, more) for more in range(waiting + 1)), "another studio is seen where none was"
    without, with_one = count(states, False), count(states, True)
    assert with_one["within what waits"] == with_one["wrong"], "the other stopped elsewhere"
    return len(APPLIED) * len(WAITING) * len(SENT), without["wrong"], with_one["wrong"]
