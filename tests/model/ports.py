"""A port for a test to have something listen on."""

import contextlib
import random
import socket
import threading

# Below those that the system gives the near end of a connection: one that is dialled before anybody listens there could be connected to
# itself, and one that somebody else is given meanwhile could not be listened on.
PORTS = range(10000, 32000)

CHANCE = random.SystemRandom()
LOCK = threading.Lock()
GIVEN = set()


def free_port():
    """A port on which nobody listens, and which was not asked for before. It is bound and not listened on: a child that another thread
    starts meanwhile has it open too until it is the program, so a listener would hold the port and take a connection for so long."""
    while True:
        port = CHANCE.choice(PORTS)
        with LOCK, contextlib.suppress(OSError), socket.socket() as tried:
            if port not in GIVEN:
                tried.setsockopt(socket.SOL_SOCKET, socket.SO_REUSEADDR, 1)
                tried.bind(("127.0.0.1", port))
                GIVEN.add(port)
                return port
