#!/usr/bin/env python3
"""record.py FILE END OWN PEER PORT ADDRESS: records one connection, as one end of it has it, to FILE, which the inspector reads.

A capture has the order of the end that is captured, in which it hears packet by packet and answers each. What is seen on the wire has another order: both ends send while the other one does, and a
sound connection breaks there by `stamp`. So this stands between the two in lock step. It waits at PORT for the end that begins, dials the other one at ADDRESS (HOST:PORT), and gives the captured
end one whole packet, and the next one only when that end was quiet for QUIET seconds (0.1); what it sends goes on at once. A connection takes longer so, by as many packets.

On a busy machine take a longer QUIET: a packet that is given before the one before it was answered shows as `stamp` at what answers that.

END is `initiator` where the end that dials PORT is the captured one, and `acceptor` where it is the one at ADDRESS. OWN is the GUID of the captured end, PEER that of the other one. A packet of
over 1,048,576 bytes is in pieces of that many. Bytes that are no packet stand in the order in which they came.
"""
import os, pathlib, select, socket, sys

QUIET = float(os.environ.get("QUIET", "0.1"))
MOST = 1_048_576  # bytes of a piece
WINDOW = 64  # that these managers tell
SENT, HEARD = 0, 1
END = {"initiator": 0, "acceptor": 1}


def wire(guid):
    """A GUID as it stands in packets."""
    first, second, third, fourth, last = guid.split("-")
    return b"".join(bytes.fromhex(part)[::-1] for part in (first, second, third)) + bytes.fromhex(fourth + last)


def head(end, own, peer, window=WINDOW):
    return b"MQBC" + bytes([END[end]]) + wire(own) + wire(peer) + window.to_bytes(2, "little")


def pieces(way, packet):
    """A packet in pieces of its own."""
    parts = (packet[at:at + MOST] for at in range(0, len(packet), MOST))
    return b"".join(bytes([way]) + len(part).to_bytes(4, "little") + part for part in parts)


def packets_in(held):
    """Takes the whole packets from the front of what is held; bytes of no size stay there."""
    while len(held) >= 16 and 16 <= (size := int.from_bytes(held[8:12], "little")) <= len(held):
        yield bytes(held[:size])
        del held[:size]


def give(end, data):
    """Whether an end takes these bytes: one that is gone takes none."""
    try:
        end.sendall(data)
        return True
    except OSError:
        return False


def by_time(end):
    """Whether an end is quiet: it sent nothing for QUIET seconds."""
    return not select.select([end], [], [], QUIET)[0]


def read_until_quiet(end, is_quiet=by_time):
    """What an end sends before it is quiet, and whether it closed."""
    came = bytearray()
    while not is_quiet(end):
        try:
            part = end.recv(65536)
        except ConnectionError:
            return came, True
        if not part:
            return came, True
        came += part
    return came, False


class Recorder:
    """Stands between the captured end and the other one. `loses` is asked before each packet that is to be heard, and answers how many of its bytes the captured end is still given before
    the connection is lost, or None. `is_quiet` says whether the captured end has answered all that it was given."""

    def __init__(self, captured, other, loses=lambda count, packet: None, is_quiet=by_time):
        self.captured, self.other, self.loses, self.is_quiet = captured, other, loses, is_quiet
        self.events, self.sent, self.heard = [], bytearray(), bytearray()
        self.closed = False  # the captured end is

    def hear_out(self):
        """Takes what the captured end sends until it is quiet, and gives it to the other one."""
        came, closed = read_until_quiet(self.captured, self.is_quiet)
        self.sent += came
        self.events += [(SENT, packet) for packet in packets_in(self.sent)]
        give(self.other, came)
        self.closed = self.closed or closed

    def run(self):
        """The packets that the captured end sent and heard, in its order, and the rest of one behind them."""
        ended = False
        while not self.closed and not ended:
            self.hear_out()
            came, ended = read_until_quiet(self.other)
            self.heard += came
            for packet in list(packets_in(self.heard)):
                if self.closed:
                    break
                left = self.loses(len(self.events), packet)
                if left is not None:
                    give(self.captured, packet[:left])
                    return self.end([(HEARD, packet[:left])] if left else [])
                if not give(self.captured, packet):
                    break
                self.events.append((HEARD, packet))
                self.hear_out()
        if ended and not self.closed:  # the captured end learns it, and may still answer
            self.captured.shutdown(socket.SHUT_WR)
            while not self.closed:
                self.hear_out()
        return self.end([])

    def end(self, rest):
        self.captured.close(), self.other.close()
        return self.events + ([(SENT, bytes(self.sent))] if self.sent else []) + rest


def capture_of(end, own, peer, events):
    return head(end, own, peer) + b"".join(pieces(way, packet) for way, packet in events)


def main(file, end, own, peer, port, address):
    host, _, at = address.rpartition(":")
    with socket.create_server(("", int(port))) as server:
        dialling, _ = server.accept()
    dialled = socket.create_connection((host, int(at)))
    ends = (dialling, dialled) if end == "initiator" else (dialled, dialling)
    events = Recorder(*ends).run()
    pathlib.Path(file).write_bytes(capture_of(end, own, peer, events))
    print(f"sent {sum(way == SENT for way, _ in events)} heard {sum(way == HEARD for way, _ in events)}")


if __name__ == "__main__":
    if len(sys.argv) != 7 or sys.argv[2] not in END:
        sys.exit(__doc__.splitlines()[0])
    main(*sys.argv[1:])
