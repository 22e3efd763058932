"""The messages between vpcd and a card: a length of two bytes, the high byte first, and so many bytes.

A message of one byte is power off, power on, reset, or asks for the answer to reset; any other is a command, and gets a
reply. The card connects to the reader, by this machine's loopback address alone.
"""

import os
import select
import signal
import socket

LOOPBACK = "127.0.0.1"
PORT = 0x8C7B
OFF, ON, RESET, ASK_ATR = (bytes([number]) for number in (0, 1, 2, 4))
AGAIN = 1.0


class Closed(Exception):
    """The other side is gone."""


class Stopped(Exception):
    """This process was asked to end."""


class Stop:
    """Turns SIGTERM, SIGINT and SIGHUP into an end of the next wait; nothing else is broken off."""

    def __init__(self):
        self.pipe, end = os.pipe()
        os.set_blocking(end, False)
        for number in (signal.SIGTERM, signal.SIGINT, signal.SIGHUP):
            signal.signal(number, lambda *_: None)
        signal.set_wakeup_fd(end, warn_on_full_buffer=False)

    def wait(self, reads=(), writes=(), seconds=None):
        """Whether one of these is ready before the time is over."""
        ready, writable, _ = select.select([self.pipe, *reads], writes, [], seconds)
        if self.pipe in ready:
            raise Stopped
        return bool(ready or writable)


class Wire:
    """A connection: whole messages in, whole messages out."""

    def __init__(self, connection, stop):
        connection.setblocking(False)
        connection.setsockopt(socket.IPPROTO_TCP, socket.TCP_NODELAY, 1)
        self.connection, self.stop = connection, stop

    def receive(self):
        return self.take(int.from_bytes(self.take(2), "big"))

    def take(self, count):
        data = b""
        while len(data) < count:
            self.stop.wait(reads=[self.connection])
            try:
                piece = self.connection.recv(count - len(data))
            except OSError as failure:
                raise Closed(failure.strerror) from None
            if not piece:
                raise Closed("in a message" if data else "between two messages")
            data += piece
        return data

    def send(self, message):
        data = len(message).to_bytes(2, "big") + message
        while data:
            self.stop.wait(writes=[self.connection])
            try:
                data = data[self.connection.send(data) :]
            except OSError as failure:
                raise Closed(failure.strerror) from None

    def close(self):
        self.connection.close()


class Door:
    """The port of a vpcd on this machine, which listens there."""

    def __init__(self, port, stop):
        self.port, self.stop = port, stop

    def open(self):
        """A connection, as soon as there is a reader."""
        while True:
            try:
                return Wire(socket.create_connection((LOOPBACK, self.port), timeout=AGAIN), self.stop)
            except OSError:
                self.stop.wait(seconds=AGAIN)


class Bridge:
    """Serves one connection after the other with one card, until it is stopped."""

    def __init__(self, card, door, log):
        self.card, self.door, self.log = card, door, log

    def serve(self):
        try:
            while True:
                self.log(f"waits for a reader at {LOOPBACK}:{self.door.port}")
                self.serve_one(self.door.open())
        except Stopped:
            self.log("stopped")

    def serve_one(self, wire):
        """Answers what a reader sends; a card whose reader is gone has no power."""
        self.log("a reader is there")
        try:
            while True:
                reply = self.handle(wire.receive())
                if reply is not None:
                    wire.send(reply)
        except Closed as closed:
            self.log(f"the reader is gone: {closed}")
            self.card.power_off()
        finally:
            wire.close()

    def handle(self, message):
        """The reply to a message, or None where there is none to it."""
        if message == ASK_ATR:
            return self.card.atr
        if message in (ON, RESET):
            return self.card.power_on()
        if message == OFF:
            return self.card.power_off()
        return self.card.transmit(message)
