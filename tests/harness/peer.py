"""A client of a KDC by datagrams, which times the replies."""

import socket
import time


class Peer:
    """A client by datagrams."""

    def __init__(self, server):
        self.socket = socket.socket(socket.AF_INET, socket.SOCK_DGRAM)
        self.socket.connect(server.udp)
        self.socket.settimeout(1)
        self.asked_again = 0
        self.reply = b""

    def ask(self, request):
        """The seconds that the reply took. Like stock clients it asks again after a second, three times in all: if the
        system's queue is full a datagram is dropped."""
        for _ in range(3):
            start = time.perf_counter()
            self.socket.send(request)
            try:
                self.reply = self.socket.recv(65536)
                return time.perf_counter() - start
            except TimeoutError:
                self.asked_again += 1
        raise TimeoutError
