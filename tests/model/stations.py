"""Random stations for tests/run/on_air and tests/receiver: messages that make a store, and messages that change it."""

import model

LETTERS = range(0x20, 0x7F)
MOST_CHARACTERS = 64
TOGGLE, ADDS = 0x01, 0x40
# types 0 and 2 are left out: to a receiver they are the name and the text
OTHER_TYPES = [kind for kind in range(32) if kind not in (0, 1, 4, 5)]


def some(chance, count, characters=LETTERS):
    return bytes(chance.choice(characters) for _ in range(count))


def name(chance):
    return some(chance, 8, chance.choice([LETTERS, LETTERS, range(256)]))


def radiotext(head, characters):
    return bytes([0x0A, 0, 0, len(characters) + 1, head]) + characters


def head_of(is_new, transmissions, adds):
    return (TOGGLE if is_new else 0) | transmissions << 1 | (ADDS if adds else 0)


def length(chance):
    return chance.choice([1, 3, 4, 5, 60, 61, 63, chance.randrange(1, MOST_CHARACTERS)])


def several(chance, are_new):
    count = chance.randrange(2, 9)
    return [
        radiotext(head_of(are_new, chance.choice([1, 1, 2, 3]), number > 0), some(chance, chance.choice([1, 7, 12, 20]))) for number in range(count)
    ]


# the messages of each kind of text
TEXTS = {
    "no text": lambda chance: [],
    "a text that was there": lambda chance: [radiotext(0, b"gone"), bytes([0x0A, 0, 0, 0])],
    "an empty text": lambda chance: [radiotext(chance.choice([0, TOGGLE]), b"")],
    "a text": lambda chance: [radiotext(0, some(chance, length(chance)))],
    "a text that is new": lambda chance: [radiotext(TOGGLE, some(chance, length(chance)))],
    "a text of 64 characters": lambda chance: [radiotext(TOGGLE, some(chance, MOST_CHARACTERS))],
    "a text with a return in it": lambda chance: [radiotext(TOGGLE, some(chance, 9) + b"\r" + some(chance, length(chance) - 1)[:54])],
    "a text of any bytes": lambda chance: [radiotext(TOGGLE, some(chance, length(chance), range(256)))],
    "texts that are new": lambda chance: several(chance, True),
    "texts that are not new": lambda chance: several(chance, False),
}


def switches(chance):
    return [bytes([0x03, 0, 0, chance.randrange(4)]), bytes([0x05, 0, 0, chance.randrange(2)]), bytes([0x07, 0, 0, chance.randrange(32)])]


def waiting(chance):
    count = chance.choice([0, 0, 1, 3, 32])
    return [bytes([0x24, chance.choice(OTHER_TYPES), ADDS | chance.randrange(32)]) + some(chance, 4, range(256)) for _ in range(count)]


def station(chance, kind):
    """The messages that make a station of a kind, each of elements that no store refuses."""
    pi = bytes([0x01, 0, 0]) + chance.randrange(1, 0x10000).to_bytes(2, "big")
    return [pi, bytes([0x02, 0, 0]) + name(chance), *switches(chance), *TEXTS[kind](chance), *waiting(chance)]


def change(chance):
    """The messages of a change in the middle: of one thing, or of several."""
    changes = [
        [bytes([0x02, 0, 0]) + name(chance)],
        switches(chance),
        TEXTS[chance.choice(sorted(TEXTS))](chance) or [bytes([0x0A, 0, 0, 0])],
        [bytes([0x01, 0, 0]) + chance.randrange(1, 0x10000).to_bytes(2, "big")],
        waiting(chance),
    ]
    return [message for messages in chance.sample(changes, chance.randrange(1, 4)) for message in messages]


def stream(messages):
    """The messages as input lines of `uecp answer`."""
    frames = (model.Frame(0x0041, 1 + number % 255, message) for number, message in enumerate(messages))
    return "".join(f"{model.digits(model.spelling(frame))}\n" for frame in frames).encode()


def applied(store, messages):
    for message in messages:
        code = store.apply(message)
        assert code in (0x00, 0x0B), f"{message.hex()} is refused with {code:02X}"
    return store
