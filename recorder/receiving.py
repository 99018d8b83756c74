"""The socket to which programs send their records: it is open before their main, whatever limits or rights
they take later."""
import contextlib
import os
import re
import selectors
import socket
import threading
from pathlib import Path

PIECE = 1 << 20
END = b"\nend\n"


class Sender:
    """One process's connection: records, one after another."""

    def __init__(self, connection: socket.socket, folder: Path):
        self.connection, self.folder = connection, folder
        self.text, self.file, self.name = b"", None, ""

    def receive(self) -> bool:
        """Writes a piece of what is sent. Returns whether more may come."""
        piece = self.connection.recv(PIECE)
        self.take(piece)
        return bool(piece)

    def close(self):
        """What isn't whole is given up."""
        self.connection.close()
        if self.file:
            with contextlib.suppress(OSError):
                os.unlink(self.file.name)
                self.file.close()

    def take(self, piece: bytes):
        self.text += piece
        while self.text:
            if not self.file and not self.begin():
                return
            end = self.text.find(END)
            if end < 0:  # (what may be the beginning of an end is kept)
                whole = max(len(self.text) - len(END) + 1, 0)
                self.file.write(self.text[:whole])
                self.text = self.text[whole:]
                return
            self.file.write(self.text[: end + len(END)])
            self.text = self.text[end + len(END) :]
            self.file.close()
            self.file = None
            os.rename(self.folder / f"{self.name}.part", self.folder / self.name)

    def begin(self) -> bool:
        """Reads the line `record NAME`, if it is there."""
        line, found, rest = self.text.partition(b"\n")
        if not found:
            return False
        named = re.fullmatch(r"record (record(\.\d+)+)", line.decode(errors="replace"))
        self.text = rest if named else b""
        if named:
            self.name = named[1]
            self.file = open(self.folder / f"{self.name}.part", "wb")
        return bool(named)


class Receiver:
    """Writes what programs send to the folder, each record to a file of its own when it is whole."""

    def __init__(self, path: str, folder: str):
        self.path, self.folder = path, Path(folder)
        self.listening = socket.socket(socket.AF_UNIX)
        self.listening.bind(path)
        self.listening.listen(100)
        self.selector = selectors.DefaultSelector()
        self.selector.register(self.listening, selectors.EVENT_READ, self.listening)
        self.woken, self.waker = socket.socketpair()
        self.selector.register(self.woken, selectors.EVENT_READ)
        self.fault = None  # the first one, for which a record was given up
        self.thread = threading.Thread(target=self.serve, daemon=True)
        self.thread.start()

    def serve(self):
        is_ending = False
        while ready := self.selector.select(0 if is_ending else None):
            for key, _ in ready:
                if key.fileobj is self.woken:
                    self.selector.unregister(self.woken)
                    is_ending = True
                elif not self.take(key):
                    self.selector.unregister(key.fileobj)
                    key.data.close()

    def take(self, key: selectors.SelectorKey) -> bool:
        """Takes a connection, or a piece of what comes by it. Returns whether more may come: after a fault
        none does, so that the program goes on."""
        try:
            if key.fileobj is not self.listening:
                return key.data.receive()
            sender = Sender(self.listening.accept()[0], self.folder)
            self.selector.register(sender.connection, selectors.EVENT_READ, sender)
            return True
        except OSError as fault:
            self.fault = self.fault or fault
            return False

    def finish(self):
        """Takes all that was sent until now, and closes the socket."""
        self.waker.send(b".")
        self.thread.join()
        self.listening.close()
        os.unlink(self.path)
