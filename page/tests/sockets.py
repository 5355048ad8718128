# SPDX-License-Identifier: BSD-3-Clause
"""A client of web sockets, as far as a browser's own protocol needs one: RFC 6455, texts alone, on this machine."""
import base64
import os
import socket
import struct

TEXT, CLOSE, PING, PONG = 1, 8, 9, 10


class Socket:
    """An open connection."""

    def __init__(self, port, path, timeout=60):
        self.socket = socket.create_connection(("127.0.0.1", port), timeout)
        self.rest = b""
        key = base64.b64encode(os.urandom(16)).decode()
        lines = [f"GET {path} HTTP/1.1", f"Host: 127.0.0.1:{port}", "Upgrade: websocket", "Connection: Upgrade",
                 f"Sec-WebSocket-Key: {key}", "Sec-WebSocket-Version: 13", "", ""]
        self.socket.sendall("\r\n".join(lines).encode())
        while b"\r\n\r\n" not in self.rest:
            self.more()
        head, _, self.rest = self.rest.partition(b"\r\n\r\n")
        if b" 101 " not in head.split(b"\r\n")[0]:
            raise OSError(f"the browser answers {head[:80]!r}")

    def more(self):
        """Waits for more bytes."""
        part = self.socket.recv(1 << 16)
        if not part:
            raise OSError("the browser closed the connection")
        self.rest += part

    def take(self, count):
        """So many bytes."""
        while len(self.rest) < count:
            self.more()
        part, self.rest = self.rest[:count], self.rest[count:]
        return part

    def send(self, text, kind=TEXT):
        """Sends a text in one masked frame."""
        content, mask = text.encode() if isinstance(text, str) else text, os.urandom(4)
        size = len(content)
        length = (bytes([0x80 | size]) if size < 126 else b"\xfe" + struct.pack(">H", size) if size < 1 << 16 else
                  b"\xff" + struct.pack(">Q", size))
        repeated = (mask * (size // 4 + 1))[:size]
        masked = (int.from_bytes(content, "big") ^ int.from_bytes(repeated, "big")).to_bytes(size, "big")
        self.socket.sendall(bytes([0x80 | kind]) + length + mask + masked)

    def receive(self):
        """The next text."""
        parts = b""
        while True:
            first, second = self.take(2)
            size = second & 127
            if size > 125:
                size = int.from_bytes(self.take(2 if size == 126 else 8), "big")
            content = self.take(size)
            if first & 15 == PING:
                self.send(content, PONG)
            elif first & 15 == CLOSE:
                raise OSError("the browser closed the connection")
            elif first & 15 in (0, TEXT):
                parts += content
                if first & 0x80:
                    return parts.decode()

    def close(self):
        """Ends the connection."""
        self.socket.close()
