"""Messages of JSON over a WebSocket: as much of RFC 6455 as the debugging ports of browsers need."""

import base64
import json
import os
import socket

TEXT, CLOSE = 1, 8  # kinds of frames; those above CLOSE only ask whether someone is there
HOST = "127.0.0.1"


class Messages:
    """Asks at a debugging port, one thing after another."""

    def __init__(self, port, path, seconds):
        self.socket = socket.create_connection((HOST, port), timeout=seconds)
        self.file = self.socket.makefile("rb")
        self.number = 0
        lines = [f"GET {path} HTTP/1.1", f"Host: {HOST}:{port}", "Upgrade: websocket", "Connection: Upgrade",
                 f"Sec-WebSocket-Key: {base64.b64encode(os.urandom(16)).decode()}", "Sec-WebSocket-Version: 13", "", ""]
        self.socket.sendall("\r\n".join(lines).encode())
        status = self.file.readline().decode().strip()
        while self.file.readline().strip():
            pass
        if " 101 " not in status:
            raise OSError(f"the browser does not talk: {status}")

    def ask(self, method, params):
        """What a method answers. What the browser says meanwhile of other things is passed by."""
        self.number += 1
        self.send(json.dumps({"id": self.number, "method": method, "params": params}).encode())
        message = {}
        while message.get("id") != self.number:
            message = json.loads(self.receive())
        if message.get("error"):
            raise RuntimeError(f"{method}: {message['error']}: {message.get('message', '')}")
        return message["result"]

    def send(self, text):
        """Sends one frame, masked as all that a client sends."""
        mask, size = os.urandom(4), len(text)
        more = 0 if size < 126 else 2 if size < 65_536 else 8
        first = size if more == 0 else 126 if more == 2 else 127
        masked = bytes(byte ^ mask[at % 4] for at, byte in enumerate(text))
        self.socket.sendall(bytes([128 | TEXT, 128 | first]) + (size.to_bytes(more, "big") if more else b"") + mask + masked)

    def receive(self):
        """The next text, of as many frames as it has."""
        text, is_last = b"", False
        while not is_last:
            kind, size = self.file.read(2)
            size &= 127
            if size > 125:
                size = int.from_bytes(self.file.read(2 if size == 126 else 8), "big")
            part = self.file.read(size)
            if kind & 15 == CLOSE:
                raise OSError("the browser closes the connection")
            if kind & 15 < CLOSE:
                text, is_last = text + part, kind >= 128
        return text

    def close(self):
        self.socket.close()
