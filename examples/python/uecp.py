"""The Universal Encoder Communication Protocol of RDS, over the shared library libuecp and nothing but ctypes.

    >>> frame = encode(bytes(Ps(0, 0, b"RADIO 1 ")), site=1, encoder=1, counter=5)
    >>> [found.message for found in decode([frame[:7], frame[7:]])]
    [b'\\x02\\x00\\x00RADIO 1 ']
    >>> words(message_of('music; pty "Pop Music"'))
    'music; pty "Pop Music"'

    >>> with Server(1, 1) as server, Encoder(1, 1) as encoder:
    ...     server.submit(message_of('ps "RADIO 1"'))
    ...     replies = b"".join(encoder.answer(frame) for frame in server.frames())
    ...     list(server.hear(replies)), encoder.service(1, 1).name, encoder.words()[1]
    ([Acknowledged(counter=1, code=0)], b'RADIO 1 ', 'in 1 for 01 ps "RADIO 1"')

Bytes come in and go out as `bytes`, findings and elements as iterators, refusals as exceptions below `UecpError`. A `Deframer`, an
`Encoder` and a `Server` keep what they need in the library until they are closed, by `close`, by `with`, or with the last name for
them; each is used by one thread at a time, whichever that is, and freed on any. The library is the file that the variable UECP_LIBRARY
names, or else the installed libuecp.so.0."""

import ctypes
import os
from typing import Iterable, Iterator, NamedTuple, Optional, Union

MESSAGE_MAX, FRAME_MAX, ELEMENT_MAX, NAME_MAX = 255, 524, 69, 14


class UecpError(ValueError):
    """What the library refuses."""


class ElementError(UecpError):
    """At a place of a message no element begins, or the message ends within it: `place`, and the reply code `code`."""

    def __init__(self, place, code):
        super().__init__(f"{code_name(code)} at {place}")
        self.place, self.code = place, code


class WordsError(UecpError):
    """A line of phrases says no message: `column` from 1, what was `expected` there, and the `nearest` word, or None."""

    def __init__(self, column, expected, nearest=None):
        super().__init__(f"column {column}: {expected}" + (f", perhaps {nearest}" if nearest else ""))
        self.column, self.expected, self.nearest = column, expected, nearest


class ClosedError(UecpError):
    """The object was closed."""


class WindowFull(UecpError):
    """The server holds eight messages."""


# ---- The library

Byte, Size = ctypes.c_uint8, ctypes.c_size_t
UNREAD = {
    1: "no word begins here",
    2: "not in the RDS character set",
    3: "no escape begins here",
    4: "a quote that is not closed",
    5: "a text of more than 64 bytes",
}


class _Finding(ctypes.Structure):
    _fields_ = [("kind", Byte), ("fault", Byte), ("counter", Byte), ("length", Byte), ("site", ctypes.c_uint16), ("encoder", Byte),
                ("message", Byte * 255), ("place", Size)]  # fmt: skip


class _Element(ctypes.Structure):
    _fields_ = [("code", Byte), ("dsn", Byte), ("psn", Byte), ("raw", Byte), ("pi", ctypes.c_uint16), ("name", Byte * 8),
                ("has_text", Byte), ("head", Byte), ("length", Byte), ("text", Byte * 64), ("kind", Byte), ("mode", Byte),
                ("block3", ctypes.c_uint16), ("block4", ctypes.c_uint16), ("reply", Byte), ("counter", Byte)]  # fmt: skip


class _Told(ctypes.Structure):
    _fields_ = [("column", Size), ("reason", Byte), ("length", Byte), ("message", Byte * 255), ("expected_length", Byte),
                ("expected", Byte * 96), ("nearest_length", Byte), ("nearest", Byte * 16)]  # fmt: skip


class _Handle(ctypes.Structure):
    _fields_ = [("at", ctypes.c_void_p), ("there", ctypes.c_bool)]


class _Answer(ctypes.Structure):
    _fields_ = [("kind", Byte), ("is_fresh", ctypes.c_bool), ("fault", Byte), ("length", Byte), ("reply", Byte * 16), ("place", Size)]


class _Heard(ctypes.Structure):
    _fields_ = [("kind", Byte), ("counter", Byte), ("code", Byte), ("fault", Byte), ("place", Size)]


class _Store(ctypes.Structure):
    _fields_ = [("sets", Byte), ("current", Byte), ("services", Size), ("groups", Size)]


class _Service(ctypes.Structure):
    _fields_ = [("pi", ctypes.c_uint16), ("name", Byte * 8), ("is_traffic_programme", ctypes.c_bool),
                ("is_traffic_announcement", ctypes.c_bool), ("is_music", ctypes.c_bool), ("programme_type", Byte),
                ("texts", Byte)]  # fmt: skip


class _Text(ctypes.Structure):
    _fields_ = [("toggle", ctypes.c_bool), ("transmissions", Byte), ("length", Byte), ("text", Byte * 64)]


class _Group(ctypes.Structure):
    _fields_ = [("kind", Byte), ("bits", Byte), ("block3", ctypes.c_uint16), ("block4", ctypes.c_uint16)]


def _loaded():
    library = ctypes.CDLL(os.environ.get("UECP_LIBRARY", "libuecp.so.0"))
    data, room, to = (ctypes.c_char_p, Size), (ctypes.c_void_p, Size), ctypes.POINTER
    handle, place, used = to(_Handle), (ctypes.c_uint16, Byte), to(Size)
    for name, answer, given in (
        ("check", ctypes.c_uint16, [*data]),
        ("encode", Size, [ctypes.c_uint16, Byte, Byte, *data, *room]),
        ("find", Size, [*data, to(_Finding)]),
        ("read_element", Byte, [*data, to(_Element), to(Size)]),
        ("write_element", Size, [to(_Element), *room]),
        ("fault_name", Size, [Byte, *room]),
        ("code_name", Size, [Byte, *room]),
        ("character_of", ctypes.c_uint32, [Byte]),
        ("byte_of", Byte, [ctypes.c_uint32]),
        ("words", Size, [ctypes.c_bool, *data, *room]),
        ("message_of", Byte, [ctypes.c_bool, *data, to(_Told)]),
        ("free", None, [handle]),
        ("line_lost", Byte, [handle]),
        ("deframer_new", Byte, [handle]),
        ("deframer_feed", Byte, [handle, *data, used, to(_Finding)]),
        ("encoder_new", Byte, [handle, *place, Byte, *data]),
        ("encoder_feed", Byte, [handle, *data, used, to(_Answer)]),
        ("encoder_store", Byte, [handle, to(_Store)]),
        ("encoder_service_number", Byte, [handle, Size, to(Byte)]),
        ("encoder_service", Byte, [handle, Byte, Byte, to(_Service)]),
        ("encoder_text", Byte, [handle, Byte, Byte, Size, to(_Text)]),
        ("encoder_group", Byte, [handle, Size, to(_Group)]),
        ("encoder_take_group", Byte, [handle, to(_Group)]),
        ("server_new", Byte, [handle, *place]),
        ("server_submit", Byte, [handle, *data]),
        ("server_waiting", Size, [handle]),
        ("server_frame", Size, [handle, Size, *room]),
        ("server_hear", Byte, [handle, *data, used, to(_Heard)]),
        ("encoder_image", Byte, [handle, *room, used]),
        ("encoder_of_image", Byte, [handle, *data]),
        ("server_image", Byte, [handle, ctypes.c_bool, ctypes.c_uint64, *room, used]),
        ("server_of_image", Byte, [handle, *data, to(ctypes.c_bool), to(ctypes.c_uint64)]),
        ("encoder_words", Byte, [handle, ctypes.c_bool, *room, used]),
        ("is_joined", ctypes.c_bool, [*place, *data]),
    ):
        function = getattr(library, f"uecp_{name}")
        function.restype, function.argtypes = answer, given
    return library


_LIBRARY = _loaded()


def _written(function, *given, room):
    """What a function writes into a buffer of its own, with so much room."""
    out = ctypes.create_string_buffer(room)
    length = function(*given, out, room)
    return out.raw[:length]


def _byte(number, name):
    """ctypes would cut a greater number to its low bits, unasked."""
    if not 0 <= number <= 0xFF:
        raise UecpError(f"{name} is no byte: {number}")
    return number


# ---- Frames


class Frame(NamedTuple):
    site: int
    encoder: int
    counter: int
    message: bytes


class Dropped(NamedTuple):
    """A segment that is no frame: the number of its fault, and of a bad stuffing the place of the FD."""

    fault: int
    place: int

    @property
    def name(self):
        return fault_name(self.fault)


def check(data: bytes) -> int:
    return _LIBRARY.uecp_check(bytes(data), len(data))


def encode(message: bytes, *, site: int, encoder: int, counter: int) -> bytes:
    """The frame of a message as it is sent."""
    if not (0 <= site <= 1023 and 0 <= encoder <= 63 and 0 <= counter <= 255):
        raise UecpError(f"no address or counter: site {site}, encoder {encoder}, counter {counter}")
    frame = _written(_LIBRARY.uecp_encode, site, encoder, counter, bytes(message), len(message), room=FRAME_MAX)
    if not frame:
        raise UecpError(f"a message of {len(message)} bytes")
    return frame


class Decoder:
    """Finds the frames of a stream that comes in any pieces."""

    def __init__(self):
        self._left = b""

    def feed(self, piece: bytes) -> Iterator[Union[Frame, Dropped]]:
        """What is found in the stream with one more piece, in order. All of it is used, however far the iterator is taken."""
        self._left += bytes(piece)
        found, told = [], _Finding()
        while True:
            done = _LIBRARY.uecp_find(self._left, len(self._left), told)
            self._left = self._left[done:]
            if told.kind == 0:
                break
            message = bytes(told.message[: told.length])
            frame = Frame(told.site, told.encoder, told.counter, message)
            found.append(frame if told.kind == 1 else Dropped(told.fault, told.place))
        # the first bytes of a segment longer than any frame tell what it is
        self._left = self._left[:FRAME_MAX]
        return iter(found)


def decode(pieces: Iterable[bytes]) -> Iterator[Union[Frame, Dropped]]:
    """What is found in a stream, as its pieces come."""
    decoder = Decoder()
    for piece in pieces:
        yield from decoder.feed(piece)


# ---- Elements


class Element:
    """One of the classes below; `bytes(element)` is its spelling."""

    def __bytes__(self):
        fields = _Element(code=self.CODE)
        for name, value in self._asdict().items():
            if isinstance(value, bytes):
                if len(value) != 8 if name == "name" else len(value) > 64:
                    raise UecpError(f"{name} of {len(value)} bytes")
                room = getattr(fields, name)
                room[: len(value)] = value
            elif value is not None:
                most = 0xFFFF if name in ("pi", "block3", "block4") else 0xFF
                if not 0 <= value <= most:
                    raise UecpError(f"{name} is out of range: {value}")
                setattr(fields, name, value)
        if self.CODE == 0x0A and self.text is not None:
            fields.has_text, fields.length = 1, len(self.text)
        return _written(_LIBRARY.uecp_write_element, fields, room=ELEMENT_MAX)


def _element(code, name, fields):
    kind = type(name, (NamedTuple(name, fields), Element), {"CODE": code, "__bytes__": Element.__bytes__})
    kind.__module__ = __name__
    return kind


_NAMED = [("dsn", int), ("psn", int)]
Pi = _element(0x01, "Pi", [*_NAMED, ("pi", int)])
Ps = _element(0x02, "Ps", [*_NAMED, ("name", bytes)])
TaTp = _element(0x03, "TaTp", [*_NAMED, ("raw", int)])
Ms = _element(0x05, "Ms", [*_NAMED, ("raw", int)])
Pty = _element(0x07, "Pty", [*_NAMED, ("raw", int)])
# head and text are None where the buffer is to be emptied
RadioText = _element(0x0A, "RadioText", [*_NAMED, ("head", Optional[int]), ("text", Optional[bytes])])
Ack = _element(0x18, "Ack", [("reply", int), ("counter", int)])
Select = _element(0x1C, "Select", [("dsn", int)])
Group = _element(0x24, "Group", [("kind", int), ("mode", int), ("block3", int), ("block4", int)])
_KINDS = {kind.CODE: kind for kind in (Pi, Ps, TaTp, Ms, Pty, RadioText, Ack, Select, Group)}


def elements(message: bytes) -> Iterator[Element]:
    """The elements of a message, in order. `ElementError` where one can't be read."""
    message, place, told, used = bytes(message), 0, _Element(), Size()
    while place < len(message):
        rest = message[place:]
        code = _LIBRARY.uecp_read_element(rest, len(rest), told, used)
        if code:
            raise ElementError(place, code)
        kind = _KINDS[told.code]
        fields = {name: getattr(told, name) for name in kind._fields}
        if kind is Ps:
            fields["name"] = bytes(told.name)
        elif kind is RadioText:
            fields["text"] = bytes(told.text[: told.length]) if told.has_text else None
            fields["head"] = told.head if told.has_text else None
        yield kind(**fields)
        place += used.value


# ---- Names, characters and words


def fault_name(number: int) -> str:
    return _written(_LIBRARY.uecp_fault_name, _byte(number, "a fault"), room=NAME_MAX).decode()


def code_name(code: int) -> str:
    return _written(_LIBRARY.uecp_code_name, _byte(code, "a code"), room=NAME_MAX).decode()


def character_of(byte: int) -> Optional[str]:
    """The character that a byte of a name or text stands for, or None."""
    number = _LIBRARY.uecp_character_of(_byte(byte, "it"))
    return chr(number) if number else None


def byte_of(character: str) -> Optional[int]:
    """The byte that stands for a character, or None."""
    return _LIBRARY.uecp_byte_of(ord(character)) or None


def words(message: bytes, rbds: bool = False) -> str:
    """A message as a line of phrases."""
    message = bytes(message)
    length = _LIBRARY.uecp_words(rbds, message, len(message), b"", 0)
    if length == Size(-1).value:
        raise MemoryError
    return _written(_LIBRARY.uecp_words, rbds, message, len(message), room=length).decode()


def message_of(line: str, rbds: bool = False) -> bytes:
    """The message that a line of phrases says. `WordsError` where it says none."""
    text, told = line.encode(), _Told()
    kind = _LIBRARY.uecp_message_of(rbds, text, len(text), told)
    if kind == 4:
        raise MemoryError
    if kind == 2:
        raise WordsError(told.column, UNREAD[told.reason])
    if kind == 3:
        nearest = bytes(told.nearest[: told.nearest_length]).decode() or None
        raise WordsError(told.column, f"expected {bytes(told.expected[: told.expected_length]).decode()}", nearest)
    return bytes(told.message[: told.length])


# ---- Objects that the library keeps

_STATUSES = {
    5: "no encoder's own address",
    6: "not 1 to 8 data sets",
    7: "not 1 to 8 services",
    8: "a service 00",
    9: "a service that is listed twice",
    10: "a message of more than 255 bytes",
    12: "it is not there",
    13: "an image of a newer version",
    14: "an image of the other kind of object",
    15: "no image",
}


def _require(status):
    """Raises what a status says."""
    if status == 2:
        raise ClosedError("it was closed")
    if status == 4:
        raise MemoryError
    if status == 11:
        raise WindowFull("eight messages are held")
    if status:
        raise UecpError(_STATUSES[status])


class _Kept:
    """An object of the library."""

    _handle = None

    def _make(self, make, *given):
        handle = _Handle()
        _require(make(handle, *given))
        self._handle = handle

    def close(self):
        """Gives its memory back; every other call raises `ClosedError` then. It may be closed again."""
        if self._handle is not None:
            _LIBRARY.uecp_free(self._handle)

    def __enter__(self):
        return self

    def __exit__(self, *raised):
        self.close()

    __del__ = close

    def line_lost(self):
        """Forgets a segment that has not ended, as where the line was lost, and nothing else."""
        _require(_LIBRARY.uecp_line_lost(self._handle))

    def _told(self, write, *given):
        """What a function writes, which tells first how long it is."""
        length = Size()
        _require(write(self._handle, *given, b"", 0, length))
        out = ctypes.create_string_buffer(length.value)
        _require(write(self._handle, *given, out, length.value, length))
        return out.raw

    def _fed(self, feed, piece, told):
        """What a piece brings, finding by finding: `told` is changed each time."""
        piece, used, place = bytes(piece), Size(), 0
        while place < len(piece):
            rest = piece[place : place + 4096]
            _require(feed(self._handle, rest, len(rest), used, told))
            place += used.value
            if told.kind:
                yield told


class Deframer(_Kept):
    """Finds the frames of a stream that comes in any pieces, as `Decoder`; the library keeps what is open."""

    def __init__(self):
        self._make(_LIBRARY.uecp_deframer_new)

    def feed(self, piece: bytes) -> Iterator[Union[Frame, Dropped]]:
        """What is found with one more piece, in order. All of it is used, however far the iterator is taken."""
        found = []
        for told in self._fed(_LIBRARY.uecp_deframer_feed, piece, _Finding()):
            if told.kind == 1:
                found.append(Frame(told.site, told.encoder, told.counter, bytes(told.message[: told.length])))
            else:
                found.append(Dropped(told.fault, told.place))
        return iter(found)


class Reply(NamedTuple):
    """A reply that is to be sent; its message was applied now where it is fresh, and else before."""

    data: bytes
    fresh: bool


class Ignored(NamedTuple):
    """A frame that has no reply: "not for me", "unnumbered" or "not next"."""

    why: str


class Text(NamedTuple):
    toggle: bool
    transmissions: int
    text: bytes


class Service(NamedTuple):
    """What a service has in one data set."""

    pi: int
    name: bytes
    tp: bool
    ta: bool
    music: bool
    pty: int
    texts: tuple


class QueuedGroup(NamedTuple):
    kind: int
    bits: int
    block3: int
    block4: int


class Encoder(_Kept):
    """An encoder's end of the line, over its store: bytes in, replies out, each message once and in its turn."""

    def __init__(self, site: int, encoder: int, *, sets: int = 1, services: Iterable[int] = (1,)):
        services = list(services)
        if not all(0 <= number <= 0xFF for number in (encoder, sets, *services)) or not 0 <= site <= 0xFFFF:
            raise UecpError(f"out of range: site {site}, encoder {encoder}, {sets} sets, services {services}")
        self._make(_LIBRARY.uecp_encoder_new, site, encoder, sets, bytes(services), len(services))

    @classmethod
    def of_image(cls, image: bytes) -> "Encoder":
        """The encoder of an image, as a start leaves it: nothing is open."""
        made = cls.__new__(cls)
        made._make(_LIBRARY.uecp_encoder_of_image, bytes(image), len(image))
        return made

    def image(self) -> bytes:
        """What is to be kept of it over a crash, before a fresh reply is sent: address, store and kept replies."""
        return self._told(_LIBRARY.uecp_encoder_image)

    def words(self, rbds: bool = False) -> list:
        """The lines of phrases that make its store: `message_of` each, in order, is a message to an encoder with these services."""
        return self._told(_LIBRARY.uecp_encoder_words, rbds).decode().split("\n")[:-1]

    def feed(self, piece: bytes) -> Iterator[Union[Reply, Ignored, Dropped]]:
        """What a piece brings, in order. All of it is used, however far the iterator is taken."""
        brought = []
        for told in self._fed(_LIBRARY.uecp_encoder_feed, piece, _Answer()):
            if told.kind == 1:
                brought.append(Reply(bytes(told.reply[: told.length]), told.is_fresh))
            elif told.kind == 5:
                brought.append(Dropped(told.fault, told.place))
            else:
                brought.append(Ignored({2: "not for me", 3: "unnumbered", 4: "not next"}[told.kind]))
        return iter(brought)

    def answer(self, piece: bytes) -> bytes:
        """The bytes that go back for a piece."""
        return b"".join(one.data for one in self.feed(piece) if isinstance(one, Reply))

    def _store(self):
        told = _Store()
        _require(_LIBRARY.uecp_encoder_store(self._handle, told))
        return told

    @property
    def sets(self) -> int:
        """How many data sets there are; they count from 1."""
        return self._store().sets

    @property
    def current(self) -> int:
        """The current data set."""
        return self._store().current

    @property
    def services(self) -> tuple:
        """The numbers of the services, the main one first."""
        number, numbers = Byte(), []
        for place in range(self._store().services):
            _require(_LIBRARY.uecp_encoder_service_number(self._handle, place, number))
            numbers.append(number.value)
        return tuple(numbers)

    def service(self, data_set: int, number: int) -> Service:
        """What the service of that number has in a data set."""
        told, text = _Service(), _Text()
        data_set, number = _byte(data_set, "the data set"), _byte(number, "the service")
        _require(_LIBRARY.uecp_encoder_service(self._handle, data_set, number, told))
        texts = []
        for place in range(told.texts):
            _require(_LIBRARY.uecp_encoder_text(self._handle, data_set, number, place, text))
            texts.append(Text(text.toggle, text.transmissions, bytes(text.text[: text.length])))
        flags = told.is_traffic_programme, told.is_traffic_announcement, told.is_music
        return Service(told.pi, bytes(told.name), *flags, told.programme_type, tuple(texts))

    @property
    def groups(self) -> tuple:
        """The groups that wait, the first to go out first."""
        told, waiting = _Group(), []
        for place in range(self._store().groups):
            _require(_LIBRARY.uecp_encoder_group(self._handle, place, told))
            waiting.append(QueuedGroup(told.kind, told.bits, told.block3, told.block4))
        return tuple(waiting)

    def take_group(self) -> Optional[QueuedGroup]:
        """The group that is to go out next, which waits no more; None where none waits."""
        told = _Group()
        status = _LIBRARY.uecp_encoder_take_group(self._handle, told)
        if status == 12:
            return None
        _require(status)
        return QueuedGroup(told.kind, told.bits, told.block3, told.block4)


class Acknowledged(NamedTuple):
    """The reply to a message that waited, under its counter, with the encoder's code."""

    counter: int
    code: int


class Stray(NamedTuple):
    """A frame that acknowledges nothing."""


class Server(_Kept):
    """A server's end of the line: up to eight messages wait for their replies, each under its counter."""

    def __init__(self, site: int, encoder: int):
        if not 0 <= site <= 0xFFFF:
            raise UecpError(f"no site: {site}")
        self._make(_LIBRARY.uecp_server_new, site, _byte(encoder, "the encoder"))

    @classmethod
    def of_image(cls, image: bytes) -> tuple:
        """The server of an image, as a start leaves it, with whether it has joined and how many messages it has taken."""
        made, joined, taken = cls.__new__(cls), ctypes.c_bool(), ctypes.c_uint64()
        made._make(_LIBRARY.uecp_server_of_image, bytes(image), len(image), joined, taken)
        return made, joined.value, taken.value

    def image(self, joined: bool, taken: int) -> bytes:
        """What is to be kept of it over a crash, before a frame is sent: with what the program keeps beside it."""
        if not 0 <= taken < 1 << 64:
            raise UecpError(f"out of range: {taken}")
        return self._told(_LIBRARY.uecp_server_image, joined, taken)

    def submit(self, message: bytes):
        """Gives it a message to send. `WindowFull` where it holds eight."""
        _require(_LIBRARY.uecp_server_submit(self._handle, bytes(message), len(message)))

    @property
    def waiting(self) -> int:
        """How many messages wait for their reply."""
        if not self._handle.there:
            raise ClosedError("it was closed")
        return _LIBRARY.uecp_server_waiting(self._handle)

    def frames(self) -> list:
        """The frames of the messages that wait, the oldest first; the same each time, to be sent until they are acknowledged."""
        return [_written(_LIBRARY.uecp_server_frame, self._handle, place, room=FRAME_MAX) for place in range(self.waiting)]

    def hear(self, piece: bytes) -> Iterator[Union[Acknowledged, Stray, Dropped]]:
        """What a piece brings, in order. All of it is used, however far the iterator is taken."""
        brought = []
        for told in self._fed(_LIBRARY.uecp_server_hear, piece, _Heard()):
            if told.kind == 3:
                brought.append(Dropped(told.fault, told.place))
            else:
                brought.append(Acknowledged(told.counter, told.code) if told.kind == 1 else Stray())
        return iter(brought)


# ---- Joining


def join_pass(*, site: int, encoder: int) -> bytes:
    """What a server sends that knows nothing of an encoder: an empty message under each of the counters 01 to FF."""
    return b"".join(encode(b"", site=site, encoder=encoder, counter=counter) for counter in range(0x01, 0x100))


def is_joined(data: bytes, *, site: int, encoder: int) -> bool:
    """Whether all that was read on the connection on which that pass was sent tells that the encoder expects 01 now."""
    return _LIBRARY.uecp_is_joined(site, _byte(encoder, "the encoder"), bytes(data), len(data))
