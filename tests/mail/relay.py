"""What stands between a front end and its server, and lets something happen while octets are on their way."""

from __future__ import annotations

import contextlib
import socket
import threading
from types import TracebackType
from typing import Callable, Optional


class Relay:
    """Passes on what both sides send, for the length of a `with`.

    When the server has sent `limit` octets, over all connections, `then` is called, once, and nothing of the server's is
    passed on meanwhile. The server is read with a small buffer, so that it has to wait as well.
    """

    def __init__(self, server: int, limit: int, then: Callable[[], object]) -> None:
        self._server, self._limit, self._then = server, limit, then
        self._guard = threading.Lock()
        self.passed = 0
        self.happened = False
        self._entrance = socket.create_server(("127.0.0.1", 0))
        self.port = self._entrance.getsockname()[1]
        self._threads = [threading.Thread(target=self._accept)]

    def __enter__(self) -> Relay:
        self._threads[0].start()
        return self

    def __exit__(
        self, kind: Optional[type[BaseException]], value: Optional[BaseException], trace: Optional[TracebackType]
    ) -> None:
        self._entrance.shutdown(socket.SHUT_RDWR)  # wakes the thread that accepts
        for thread in self._threads:
            thread.join()
        self._entrance.close()

    def _accept(self) -> None:
        with contextlib.suppress(OSError):
            while True:
                front, _ = self._entrance.accept()
                self._threads.append(threading.Thread(target=self._connect, args=(front,)))
                self._threads[-1].start()

    def _connect(self, front: socket.socket) -> None:
        """One connection: each direction is passed on by a thread. One that the server does not take ends at once."""
        with front, socket.socket() as back, contextlib.suppress(ConnectionRefusedError):
            back.setsockopt(socket.SOL_SOCKET, socket.SO_RCVBUF, 4096)
            back.connect(("127.0.0.1", self._server))
            sending = threading.Thread(target=self._pass, args=(front, back, False))
            sending.start()
            self._pass(back, front, True)
            sending.join()

    def _pass(self, source: socket.socket, sink: socket.socket, counted: bool) -> None:
        """Until the source ends, or the sink takes no more; then the connection is over."""
        with contextlib.suppress(OSError):
            while octets := source.recv(4096):
                if counted:
                    self._count(len(octets))
                sink.sendall(octets)
        for end in (source, sink):
            with contextlib.suppress(OSError):
                end.shutdown(socket.SHUT_RDWR)

    def _count(self, octets: int) -> None:
        with self._guard:
            if self.passed + octets > self._limit and not self.happened:
                self.happened = True
                self._then()
            self.passed += octets
