"""Prints two ports of 127.0.0.1 that nobody uses."""

import socket

taken = [socket.socket() for _ in range(2)]
for each in taken:
    each.bind(("127.0.0.1", 0))
print(*(each.getsockname()[1] for each in taken))
