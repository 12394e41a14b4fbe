"""Makes a case for `loglist` (a count byte, a 2-byte length for each message, then the messages) on standard output.

  tools/make-case < messages.txt      one handshake message in hex a line; blank lines and `#` comments are passed over
  tools/make-case FILE                such a list, or a capture: its first bytes tell
  tools/make-case --capture FILE      the first connection of a capture that has a ClientHello: its handshake messages in
                                      the order in which they were whole on the wire, as far as they are in clear text (what
                                      follows a ChangeCipherSpec, the Finished among it, is protected and left out)
    --list                            shows all connections instead, with their addresses and counts
    --connection N                    takes the N-th of them

A capture is a pcap or pcapng file, of Ethernet (VLAN tags too), Linux cooked, raw IP or loopback packets, IPv4 or IPv6.

Exit status: 0 done; 1 there is no case, for the reason said; 2 usage; 3 bytes of the connection are missing in the capture: the case
has the messages before them alone; 4 bytes are missing, but only where everything is protected: the case has all it can have.
"""

import argparse
import os
import sys

from captures import Capture, Unreadable, is_capture

SHORT, SHORT_WHERE_PROTECTED = 3, 4
ROOM = 32_768  # of loglist for a case


def say(text):
    if sys.stderr is not None:
        print(f"make-case: {text}", file=sys.stderr)


class Refused(Exception):
    """There is no case, and the text says why."""


def case(messages):
    if len(messages) > 255:
        raise Refused(f"{len(messages)} messages; a case has room for 255")
    if any(len(m) > 65_535 for m in messages):
        raise Refused("a message is longer than 65,535 bytes")
    made = bytes([len(messages)]) + b"".join(len(m).to_bytes(2, "big") for m in messages) + b"".join(messages)
    if len(made) > ROOM:
        say(f"warning: the case has {len(made)} bytes, and loglist refuses more than {ROOM:,}")
    return made


def from_hex(data):
    messages = []
    for number, line in enumerate(data.decode("latin-1").splitlines(), 1):
        digits = line.split("#")[0].strip()
        try:
            message = bytes.fromhex(digits)
        except ValueError:
            raise Refused(f"line {number} is not a message in hex: {ascii(digits[:40])}") from None
        if message:
            messages.append(message)
    if not messages:
        raise Refused("no message in it")
    return messages


def listed(capture):
    """The table of connections."""
    taken = first_with_hello(capture)
    rows = [("connection", "client", "server", "packets", "bytes sent", "bytes answered", "messages", "")]
    for number, c in enumerate(capture.connections, 1):
        remarks = ["the first with a ClientHello"] if c is taken else ["with a ClientHello"] if c.has_hello else []
        remarks += ["bytes are missing"] if any(trouble.lost for trouble in c.troubles) else []
        counts = (len(c.segments), c.sent, c.answered, len(c.messages()))
        rows.append((str(number), str(c.client), str(c.server), *map(str, counts), ", ".join(remarks)))
    widths = [max(len(row[i]) for row in rows) for i in range(8)]
    return "".join("  ".join(cell.ljust(width) for cell, width in zip(row, widths)).rstrip() + "\n" for row in rows)


def first_with_hello(capture):
    return next((connection for connection in capture.connections if connection.has_hello), None)


def chosen(capture, number):
    if number is None:
        connection = first_with_hello(capture)
        if connection is None:
            raise Refused(f"none of its {len(capture.connections)} TCP connections has a ClientHello (--list shows them)")
    elif 1 <= number <= len(capture.connections):
        connection = capture.connections[number - 1]
    else:
        raise Refused(f"there is no connection {number}: it has {len(capture.connections)} (--list shows them)")
    return connection


def warnings(capture, connection):
    """Says what is missing, and answers the status that goes with it."""
    for note in capture.notes:
        say(note)
    for trouble in capture.troubles:
        say(f"warning: {trouble}")
    if connection is None:
        return SHORT if capture.troubles else 0
    for trouble in connection.troubles:
        say(f"warning: {trouble.words}{'' if trouble.clear else '; what is in clear text is whole'}")
    if not (connection.troubles or connection.protected or connection.closed):
        say("note: the capture ends while the handshake is under way")
    if any(trouble.clear for trouble in connection.troubles) or (capture.troubles and not connection.protected):
        return SHORT
    return SHORT_WHERE_PROTECTED if connection.troubles or capture.troubles else 0


def from_capture(data, number):
    """The case of a connection, and the status."""
    capture = Capture(data)
    try:
        connection = chosen(capture, number)
    except Refused:
        warnings(capture, None)
        raise
    status = warnings(capture, connection)
    messages = connection.messages()
    if not messages:
        raise Refused("no handshake message of the connection is there whole and in clear text")
    return case(messages), status


def read(path):
    try:
        if path is not None:
            with open(path, "rb") as file:
                return file.read()
        if sys.stdin is not None:
            return sys.stdin.buffer.read()
    except OSError as failure:
        raise Refused(failure.strerror) from None
    raise Refused("it is closed")


def shown(path):
    return ascii(path)[1:-1] or "the empty name"


def write(data, say=say):
    """Whether it is written; `say` says why not."""
    if sys.stdout is None:
        say("standard output: it is closed")
        return False
    try:
        sys.stdout.buffer.write(data)
        sys.stdout.buffer.flush()
        return True
    except OSError as failure:
        os.dup2(os.open(os.devnull, os.O_WRONLY), sys.stdout.fileno())  # so that nothing more is said when Python closes it
        say(f"standard output: {failure.strerror}")
        return False


def arguments():
    parser = argparse.ArgumentParser(
        prog="tools/make-case", usage="%(prog)s [FILE | --capture FILE [--list | --connection N]]", add_help=False
    )
    parser.add_argument("file", nargs="?")
    parser.add_argument("--capture")
    parser.add_argument("--list", action="store_true")
    parser.add_argument("--connection", type=int)
    parser.add_argument("-h", "--help", action="store_true")
    asked = parser.parse_args()
    if asked.file is not None and asked.capture is not None:
        parser.error("one file, please")
    asked.path = asked.file if asked.capture is None else asked.capture
    if asked.list and asked.connection is not None:
        parser.error("--list shows all connections, --connection takes one")
    if (asked.list or asked.connection is not None) and asked.path is None:
        parser.error("--list and --connection are for a capture")
    return asked


def made(asked):
    """What goes to standard output, and the status."""
    if asked.help:
        return __doc__.encode(), 0
    data = read(asked.path)
    if asked.capture is None and not is_capture(data):
        if asked.list or asked.connection is not None:
            raise Refused("--list and --connection are for a capture, and this is neither pcap nor pcapng")
        return case(from_hex(data)), 0
    if asked.list:
        capture = Capture(data)
        return listed(capture).encode(), warnings(capture, None)
    return from_capture(data, asked.connection)


def main():
    asked = arguments()
    try:
        text, status = made(asked)
        return status if write(text) else 1
    except (Refused, Unreadable) as refused:
        reason = refused
    except MemoryError:
        reason = "too large for this machine's memory"
    except KeyboardInterrupt:
        reason = "interrupted"
    say(f"{'standard input' if asked.path is None else shown(asked.path)}: {reason}")
    return 1


if __name__ == "__main__":
    sys.exit(main())
