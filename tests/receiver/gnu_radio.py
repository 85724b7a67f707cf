"""GNU Radio's RDS receiver and sender (gr-rds), with no radio and no display. Run by Debian's own Python, which has its modules.

    /usr/bin/python3 gnu_radio.py hear < STREAMS     each line a PI and a stream of bits: what is shown after each group, as JSON
    /usr/bin/python3 gnu_radio.py send < STATIONS    each line a station as JSON: the bits that gr-rds's sender sends, a line each
    /usr/bin/python3 gnu_radio.py try                nothing; its status tells whether all is there

A stream ends with groups of that PI, which no other of its groups has: by them it is seen that all that came before was heard. They show in
what is written too."""

import json
import os
import sys
import time

import pmt
import rds
from gnuradio import blocks, gr

AT_ONCE = 20  # streams
SECONDS = 60
PI, NAME, TYPE, FLAGS, TEXT = range(5)  # what its messages tell
NAMES = ("pi", "name", "type", "flags", "text")
SENT_BITS = 104 * 150


class Screen(gr.basic_block):
    """What the parser tells, group by group: its first message of each group is the PI."""

    def __init__(self):
        gr.basic_block.__init__(self, name="screen", in_sig=None, out_sig=None)
        self.shown = []
        self.message_port_register_in(pmt.intern("in"))
        self.set_msg_handler(pmt.intern("in"), self.take)

    def take(self, message):
        what, value = pmt.to_long(pmt.tuple_ref(message, 0)), pmt.symbol_to_string(pmt.tuple_ref(message, 1))
        if what == PI:
            self.shown.append(dict(self.shown[-1]) if self.shown else dict.fromkeys(NAMES))
        if what < len(NAMES):
            self.shown[-1][NAMES[what]] = value


def hear(streams):
    """What is shown of each stream, at once."""
    top, screens = gr.top_block(), []
    for _, bits in streams:
        source = blocks.vector_source_b([int(bit) for bit in bits], False)
        decoder, parser, screen = rds.decoder(False, False), rds.parser(False, False, 0), Screen()
        top.connect(source, decoder)
        top.msg_connect((decoder, "out"), (parser, "in"))
        top.msg_connect((parser, "out"), (screen, "in"))
        screens.append(screen)
    top.run()
    end = time.monotonic() + SECONDS
    for (last, _), screen in zip(streams, screens):
        while not screen.shown or screen.shown[-1]["pi"] != last:
            if time.monotonic() > end:
                sys.exit(f"gr-rds has not heard the groups of {last} within {SECONDS} seconds")
            time.sleep(0.01)
    top.stop()
    return [screen.shown for screen in screens]


def hear_all():
    streams = [line.split() for line in sys.stdin]
    for first in range(0, len(streams), AT_ONCE):
        for shown in hear(streams[first : first + AT_ONCE]):
            print(json.dumps(shown))


def send(station):
    """The bits of a station."""
    top = gr.top_block()
    words = ("type", "music", "name", "frequency", "tp", "ta", "country", "area", "reference", "text")
    encoder = rds.encoder(0, *(station[word] for word in words))
    head, sink = blocks.head(gr.sizeof_char, SENT_BITS), blocks.vector_sink_b()
    top.connect(encoder, head, sink)
    top.run()
    return "".join("01"[bit] for bit in sink.data())


def main(words):
    # what gr-rds itself prints goes to standard error
    own = os.dup(1)
    os.dup2(2, 1)
    sys.stdout = os.fdopen(own, "w", encoding="ascii")
    if words == ["hear"]:
        hear_all()
    elif words == ["send"]:
        for line in sys.stdin:
            print(send(json.loads(line)))
    elif words != ["try"]:
        sys.exit(__doc__)


if __name__ == "__main__":
    main(sys.argv[1:])
