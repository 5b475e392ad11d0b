"""A WebSocket client of the standard library, for the protocols of browsers."""
import base64
import os
import socket
import struct
import urllib.parse

TEXT, CLOSE, PING, PONG = 1, 8, 9, 10


class WebSocket:
    """A connection that sends and receives texts."""

    def __init__(self, address, seconds=60):
        url = urllib.parse.urlsplit(address)
        self.socket = socket.create_connection((url.hostname, url.port), timeout=seconds)
        self.pending = b""
        key = base64.b64encode(os.urandom(16)).decode()
        self.socket.sendall((
            f"GET {url.path or '/'} HTTP/1.1\r\nHost: {url.netloc}\r\nUpgrade: websocket\r\nConnection: Upgrade\r\n"
            f"Sec-WebSocket-Key: {key}\r\nSec-WebSocket-Version: 13\r\n\r\n").encode())
        while b"\r\n\r\n" not in self.pending:
            self.read_more()
        head, _, self.pending = self.pending.partition(b"\r\n\r\n")
        if b" 101 " not in head.split(b"\r\n")[0]:
            raise ConnectionError(head.decode("ascii", "replace"))

    def read_more(self):
        """Waits for more bytes."""
        part = self.socket.recv(1 << 20)
        if not part:
            raise ConnectionError("the browser closed the connection")
        self.pending += part

    def take(self, count):
        """The next bytes."""
        while len(self.pending) < count:
            self.read_more()
        taken, self.pending = self.pending[:count], self.pending[count:]
        return taken

    def send_frame(self, kind, data):
        """Sends one whole frame, masked as a client has to."""
        if len(data) < 126:
            length = struct.pack(">B", 0x80 | len(data))
        elif len(data) < 1 << 16:
            length = struct.pack(">BH", 0x80 | 126, len(data))
        else:
            length = struct.pack(">BQ", 0x80 | 127, len(data))
        mask = os.urandom(4)
        whole = int.from_bytes((mask * (len(data) // 4 + 1))[:len(data)], "big") ^ int.from_bytes(data, "big")
        self.socket.sendall(bytes([0x80 | kind]) + length + mask + whole.to_bytes(len(data), "big"))

    def send(self, text):
        """Sends a text."""
        self.send_frame(TEXT, text.encode())

    def receive(self):
        """The next text."""
        whole = b""
        while True:
            first, second = self.take(2)
            length = second & 127
            if length == 126:
                length = struct.unpack(">H", self.take(2))[0]
            elif length == 127:
                length = struct.unpack(">Q", self.take(8))[0]
            data = self.take(length)
            kind = first & 15
            if kind == CLOSE:
                raise ConnectionError("the browser closed the connection")
            if kind == PING:
                self.send_frame(PONG, data)
            elif kind != PONG:
                whole += data
                if first & 0x80:
                    return whole.decode()

    def close(self):
        """Ends the connection."""
        self.socket.close()
