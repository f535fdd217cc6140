#!/usr/bin/env python3
"""Puts a program under test behind a TCP port, for one session after another.

Words: PROGRAM [WORDS]. The program reads one input a line from standard input and writes one output
a line to standard output. It is started anew for each connection, so each session begins at its
first state. The port is free and on this machine alone; it is the first line that is printed.
"""

import socket
import subprocess
import sys


def main() -> None:
    if len(sys.argv) < 2:
        sys.exit("listen.py: PROGRAM [WORDS]")
    with socket.create_server(("127.0.0.1", 0)) as door:
        print(door.getsockname()[1], flush=True)
        while True:
            connection, _ = door.accept()
            # what is written goes out at once, so that an output isn't seen late
            connection.setsockopt(socket.IPPROTO_TCP, socket.TCP_NODELAY, 1)
            with connection, subprocess.Popen(sys.argv[1:], stdin=connection, stdout=connection) as program:
                program.wait()


if __name__ == "__main__":
    main()
