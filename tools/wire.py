"""Signed requests of the AWS KMS API on raw connections, for scripts that measure and try the server.

A request is signed ahead (Signature Version 4) and goes out with one send, when the one before it is answered. It may go out again, within
300 seconds: so what is measured has little of the client in it."""

import json
import socket

import signing

REGION = "us-east-1"


def message(caller, operation, **members):
    """The bytes of a request of a caller, signed at the present second."""
    body = json.dumps(members, separators=(",", ":"))
    return signing.message(caller["accessKeyId"], caller["secret"], REGION, operation, body).encode()


class Refused(Exception):
    """A reply of another status than 200."""


class Connection:
    """A connection that is kept open, and made anew after a reply that says it is closed. In a `with` it is closed at the end."""

    def __init__(self, port, seconds=60):
        self.port, self.seconds = port, seconds
        self.socket = self.connected()

    def connected(self):
        """A new connection to the server."""
        made = socket.create_connection(("127.0.0.1", self.port), timeout=self.seconds)
        made.setsockopt(socket.IPPROTO_TCP, socket.TCP_NODELAY, 1)
        return made

    def close(self):
        """Closes it, where it is open."""
        if self.socket:
            self.socket.close()
        self.socket = None

    def __enter__(self):
        return self

    def __exit__(self, *_):
        self.close()

    def send(self, part):
        """Sends these bytes at once."""
        self.socket = self.socket or self.connected()
        self.socket.sendall(part)

    def more(self):
        """The next bytes of a reply."""
        part = self.socket.recv(65536)
        if not part:
            raise ConnectionError("the connection ended inside a reply")
        return part

    def reply(self):
        """The body of the next reply, which has status 200."""
        text = self.more()
        while (end := text.find(b"\r\n\r\n")) < 0:
            text += self.more()
        head = text[:end].lower()
        place = head.find(b"\r\ncontent-length:") + 17
        length = int(head[place:].split(b"\r\n", 1)[0])
        while len(text) < end + 4 + length:
            text += self.more()
        if b"\r\nconnection: close" in head:
            self.close()
        if head.split(b" ", 2)[1] != b"200":
            raise Refused(text.decode())
        return text[end + 4:]

    def ask(self, request):
        """The body of the reply to a request."""
        self.send(request)
        return self.reply()

    def ask_again(self, request):
        """The same, on a new connection where the server has ended this one between two requests."""
        try:
            return self.ask(request)
        except ConnectionError:
            self.close()
            return self.ask(request)

    def answer(self, caller, operation, **members):
        """The members of the reply to a request that is signed now."""
        return json.loads(self.ask(message(caller, operation, **members)) or b"{}")
