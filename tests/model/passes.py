"""Passes of joining, tried on tests/model/model.py from each state of an encoder: whole ones, parts, cut ones, and ones with frames or
replies lost.

Whatever was lost, where the replies that were read tell that the encoder is joined it has its value, keeps FF down to 81 and no other, and
expects 01. What an encoder makes of an empty message hangs on the counters that it keeps, so the model is asked once for each state and
counter."""

import random

import model

SETUP = model.Setup()
ADDRESS = 0x0041
COUNTERS = range(0x01, 0x100)
MOST_APPLIED = 510  # after so many messages the newest counter has been each of 01 to FF twice, and 127 were kept before it the second time
JOINED = tuple(range(0x81, 0x100))  # the counters that a joined encoder keeps, the newest last
RANDOM_LOSSES = 12
BEHIND = (0x01, 0x40, 0x7F, 0x80, 0x81, 0x82, 0xC0, 0xFC, 0xFD, 0xFE)  # counters behind which a part of a pass goes on


def programme(number):
    """A message that sets the programme identification to this number."""
    return bytes([0x01, 0, 0]) + number.to_bytes(2, "big")


class States:
    """The states of an encoder, a number each, and what comes of an empty message in each."""

    def __init__(self):
        self.numbers = {}  # by the counters that are kept, the newest last
        self.first = [self.number(kept) for kept in kept_after_messages()]
        self.steps = [self.steps_from(kept) for kept in self.numbers]  # by counter, whether there is a reply, and the state after
        self.joined = self.numbers.get(JOINED)

    def number(self, kept):
        return self.numbers.setdefault(kept, len(self.numbers))

    def steps_from(self, kept):
        encoder = model.Encoder(SETUP)
        encoder.take(model.Frame(ADDRESS, 0x01, programme(0xC201)))
        value, steps = encoder.store.lines(), {}
        for frame in model.pass_to(ADDRESS):
            encoder.codes = dict.fromkeys(kept, 0x0B)
            is_answered = encoder.take(frame) in ("new", "kept")
            assert encoder.store.lines() == value, "an empty message changed the value"
            # a state that no number of messages leads to would have no number here
            steps[frame.counter] = is_answered, self.numbers[tuple(encoder.codes)]
        return steps

    def after(self, state, counters):
        """Which of these counters are answered where their frames come, and the state then."""
        answered = []
        for counter in counters:
            is_answered, state = self.steps[state][counter]
            if is_answered:
                answered.append(counter)
        return answered, state

    def turns(self, state, counters=COUNTERS):
        """A pass frame by frame: the counter, which were answered before its turn, and the state at it."""
        answered = []
        for counter in counters:
            yield counter, answered, state
            more, state = self.after(state, [counter])
            answered = answered + more


def kept_after_messages():
    """The counters that an encoder keeps: when it is new, and after each message that it applies."""
    encoder = model.Encoder(SETUP)
    yield ()
    for number in range(MOST_APPLIED):
        assert encoder.take(model.Frame(ADDRESS, encoder.next(), programme(number))) == "new"
        yield tuple(encoder.codes)


# Each way to lose something gives passes: the counters whose replies were read, and the state after it


def with_a_reply_lost(states, state):
    answered, last = states.after(state, COUNTERS)
    for place in range(len(answered)):
        yield answered[:place] + answered[place + 1 :], last


def with_a_frame_lost(states, state):
    for counter, answered, at in states.turns(state):
        more, last = states.after(at, range(counter + 1, 0x100))
        yield answered + more, last


def with_the_end_lost(states, state):
    for _, answered, at in states.turns(state):
        yield answered, at


def with_random_losses(states, state):
    chance = random.Random(f"losses {state}")
    for _ in range(RANDOM_LOSSES):
        of_frames, of_replies = (chance.choice([0.002, 0.02, 0.1, 0.5]) for _ in range(2))
        answered, last = states.after(state, [counter for counter in COUNTERS if chance.random() >= of_frames])
        yield [counter for counter in answered if chance.random() >= of_replies], last


def with_losses(states, state):
    for way in (with_a_reply_lost, with_a_frame_lost, with_the_end_lost, with_random_losses):
        yield from way(states, state)


# Trials


def passes_after(states, count):
    """All passes from an encoder that has applied so many messages."""
    state = states.first[count]
    answered, last = states.after(state, COUNTERS)
    assert model.tell_joined(answered) and last == states.joined, "a whole pass did not join"
    told = [last for read, last in with_losses(states, state) if model.tell_joined(read)]
    assert told and set(told) == {states.joined}, "told joined by a pass that did not join"


def parts_after(states, behind):
    """A part of a pass behind this counter, from every encoder, cut anywhere: whatever came before and between, it tells the truth."""
    counters, told = model.counters_behind(behind), 0
    for state in states.first:
        ends = [(answered, at) for _, answered, at in states.turns(state, counters)] + [states.after(state, counters)]
        joined = [at for answered, at in ends if model.tell_joined(answered)]
        assert set(joined) <= {states.joined}, "told joined by a part that did not join"
        told += len(joined)
    assert told, "no part joined"


def joins_in_parts(states, replies, most):
    """Where each connection brings so many replies and is then reset, it takes so many connections at most, from every encoder."""
    for state in states.first:
        behind = 0
        for _ in range(most):
            answered, state = states.after(state, model.counters_behind(behind))
            read = answered[:replies]
            if model.tell_joined(read):
                break
            behind = model.goes_on_behind(behind, read)
        assert model.tell_joined(read) and state == states.joined, "not joined"


def parts_without_81_once_more(states):
    """Where a part behind 81 sends no more than the counters above, a studio that came between makes a false joining of two connections."""
    for state in states.first:
        answered, _ = states.after(state, range(0x82, 0x100))
        if 0xFF in answered and states.after(state, range(0x82, 0x100))[1] != states.joined:
            return
    raise AssertionError("nothing went wrong")


def new_messages(states):
    """The state that is called joined takes new messages from 01 on, past FF."""
    encoder = model.Encoder(SETUP)
    encoder.codes = dict.fromkeys(JOINED, 0x00)
    for number in range(600):
        assert encoder.take(model.Frame(ADDRESS, 1 + number % 255, programme(number))) == "new"
    assert states.numbers[tuple(encoder.codes)] == states.first[600 - 255]


def a_wrong_telling(states, tells):
    """Fewer replies, or others, call some encoder joined that is not; so the passes above can fail."""
    passes = (end for state in reversed(states.first) for end in with_losses(states, state))
    assert any(tells(read) and last != states.joined for read, last in passes), "nothing went wrong"


def two_passes_taken_for_one(states):
    """The reply to 81 in one pass and that to FF in the next call some encoder joined that is not."""
    for state in reversed(states.first):
        for read, between in with_a_frame_lost(states, state):
            if 0x81 in read and any(0xFF in later and last != states.joined for later, last in with_a_frame_lost(states, between)):
                return
    raise AssertionError("nothing went wrong")


def trials(states):
    """A name and a call for each."""
    yield from ((f"passes after {count} messages", lambda count=count: passes_after(states, count)) for count in range(MOST_APPLIED + 1))
    yield from ((f"parts behind {behind:02X}", lambda behind=behind: parts_after(states, behind)) for behind in BEHIND)
    yield "parts of 20 replies", lambda: joins_in_parts(states, 20, 14)
    yield "parts of 2 replies", lambda: joins_in_parts(states, 2, 129)
    yield "81 and FF of two parts", lambda: parts_without_81_once_more(states)
    yield "new messages to a joined encoder", lambda: new_messages(states)
    yield "joined by FF alone", lambda: a_wrong_telling(states, lambda read: 0xFF in read)
    yield "joined by 82 and FF", lambda: a_wrong_telling(states, lambda read: {0x82, 0xFF}.issubset(read))
    yield "joined by 7E and FF", lambda: a_wrong_telling(states, lambda read: {0x7E, 0xFF}.issubset(read))
    yield "joined by 81 and FE", lambda: a_wrong_telling(states, lambda read: {0x81, 0xFE}.issubset(read))
    yield "joined by 81 of one pass and FF of the next", lambda: two_passes_taken_for_one(states)
