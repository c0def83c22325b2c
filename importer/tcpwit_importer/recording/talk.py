#!/usr/bin/python3
"""A plain client and server for tcpwit-record --transfer: talk.py receive PORT [echo], talk.py send ADDRESS PORT BYTES
CHUNK [echo]"""
import os
import socket
import sys


def receive(port, echo):
    """Accepts one connection and reads until it ends."""
    with socket.create_server(("", port), backlog=4) as listener:
        end, _ = listener.accept()
        with end:
            end.setsockopt(socket.IPPROTO_TCP, socket.TCP_NODELAY, 1)
            while data := end.recv(5000):
                if echo:
                    end.sendall(data)


def send(address, port, size, chunk):
    """Sends this many bytes, shuts down sending, and reads until the other end has ended too."""
    with socket.create_connection((address, port)) as end:
        end.setsockopt(socket.IPPROTO_TCP, socket.TCP_NODELAY, 1)
        while size:
            part = min(size, chunk)
            end.sendall(os.urandom(part))
            size -= part
        end.shutdown(socket.SHUT_WR)
        while end.recv(5000):
            pass


if sys.argv[1] == "receive":
    receive(int(sys.argv[2]), sys.argv[3:] == ["echo"])
else:
    send(sys.argv[2], int(sys.argv[3]), int(sys.argv[4]), int(sys.argv[5]))
