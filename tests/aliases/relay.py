"""A server on loopback between an asker and a name server."""

import socket
import threading

from processes import HOST, free_port


def bound(host, port):
    """A socket for datagrams at an address."""
    made = socket.socket(socket.AF_INET, socket.SOCK_DGRAM)
    made.bind((host, port))
    return made


class Relay:
    """Asks the server at an address what it is asked; what goes to the asker, `send` and `send_by_stream` say. It ends with the
    program."""

    def __init__(self, server):
        self.server, self.port = server, free_port()
        self.udp = bound(HOST, self.port)
        self.tcp = socket.create_server((HOST, self.port))
        for serve in (self.serve_udp, self.serve_tcp):
            threading.Thread(target=serve, daemon=True).start()

    def answer_of(self, query):
        with socket.socket(socket.AF_INET, socket.SOCK_DGRAM) as it:
            it.connect(self.server)
            it.send(query)
            return it.recv(65535)

    def serve_udp(self):
        while True:
            query, asker = self.udp.recvfrom(65535)
            self.send(self.answer_of(query), asker)

    def serve_tcp(self):
        while True:
            with self.tcp.accept()[0] as it:
                answer = self.answer_of(it.recv(65535)[2:])
                self.send_by_stream(it, len(answer).to_bytes(2, "big") + answer)

    def send_by_stream(self, connection, octets):
        connection.sendall(octets)
