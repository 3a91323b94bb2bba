#!/usr/bin/env python3
"""Records requests as curl writes them, each into curl/NAME.http beside this file.

A listener on the loopback takes one connection for each request, keeps every byte that comes up to
the end of the announced body, answers with a good acknowledgement and closes."""

import pathlib
import re
import socket
import subprocess
import threading

HERE = pathlib.Path(__file__).resolve().parent
PORT = 8317
URL = f"http://127.0.0.1:{PORT}/scripts/a.zip"

# The first session of an intake with site 1 and first serial 1.
SESSION = "BITS-Session-Id: {00000000-0000-0001-0000-000000000001}"
PROTOCOLS = "BITS-Supported-Protocols: {7df0354d-249b-430f-820d-3d2a9bef4931}"
EMPTY = "Content-Length: 0"

ANSWER = b"HTTP/1.1 200 OK\r\nBITS-Packet-Type: Ack\r\nContent-Length: 0\r\n\r\n"


def asked(packet_type, *fields, body=None):
    """The words of one curl command; those before -X leave no trace in the request."""
    words = ["curl", "-q", "--noproxy", "*", "--silent", "--show-error", "--fail", "--max-time", "10"]
    words += ["-X", "BITS_POST"]
    for field in (f"BITS-Packet-Type: {packet_type}", *fields):
        words += ["-H", field]
    if body is not None:
        words += ["--data-binary", body]
    return words + [URL]


REQUESTS = {
    "ping": asked("Ping", EMPTY),
    "create": asked("Create-Session", PROTOCOLS, EMPTY),
    "fragment1": asked("Fragment", SESSION, "Content-Range: bytes 0-9/20", body="hall 7, an"),
    "fragment2": asked("Fragment", SESSION, "Content-Range: bytes 10-19/20", body="swer sheet"),
    "close": asked("Close-Session", SESSION, EMPTY),
    "cancel": asked("Cancel-Session", SESSION, EMPTY),
}


def announced(head):
    """The value of Content-Length."""
    found = re.search(rb"\r\nContent-Length: *(\d+)\r\n", head, re.IGNORECASE)
    return int(found.group(1)) if found else 0


def receive(listener, kept):
    """Takes one request whole and answers it."""
    connection, _ = listener.accept()
    with connection:
        connection.settimeout(10)
        data = b""
        while True:
            end = data.find(b"\r\n\r\n")
            if end >= 0 and len(data) >= end + 4 + announced(data[: end + 4]):
                break
            more = connection.recv(65536)
            if not more:
                break
            data += more
        connection.sendall(ANSWER)
    kept.append(data)


def main():
    folder = HERE / "curl"
    folder.mkdir(exist_ok=True)
    with socket.socket() as listener:
        listener.setsockopt(socket.SOL_SOCKET, socket.SO_REUSEADDR, 1)
        listener.bind(("127.0.0.1", PORT))
        listener.listen()
        listener.settimeout(20)
        for name, words in REQUESTS.items():
            kept = []
            taker = threading.Thread(target=receive, args=(listener, kept))
            taker.start()
            subprocess.run(words, check=True)
            taker.join()
            (folder / f"{name}.http").write_bytes(kept[0])
            print(f"{name}.http: {len(kept[0])} bytes")


main()
