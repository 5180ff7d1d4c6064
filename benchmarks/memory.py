#!/usr/bin/env python3
"""How much memory a session takes while it is idle, before it was ever busy and after bursts of calls in flight.

A stand-in for a bus answers each call at once. Sessions connect through the proxy, authenticate themselves and say Hello;
then each makes 20 bursts of calls to one name, and waits for the answers of a burst before the next. The memory is the
proxy's resident memory, from /proc."""
import argparse
import os
import resource
import selectors
import socket
import subprocess
import sys
import tempfile
import threading
import time

HERE = os.path.dirname(os.path.abspath(__file__))
sys.path.insert(0, HERE)
from growth import BUS_NAME, CALL, RETURN, call, message, texts  # noqa: E402

NAME = "org.a.Name"
ROUNDS = 20


class Stream:
    """One end of a session: lines up to BEGIN, and then messages."""

    def __init__(self, sock, in_lines):
        self.sock = sock
        self.data = b""
        self.in_lines = in_lines

    def messages(self):
        """The messages that stand whole, each as its kind, its serial and its first field's bytes."""
        found, at = [], 0
        while len(self.data) >= at + 16:
            body = int.from_bytes(self.data[at + 4 : at + 8], "little")
            fields = int.from_bytes(self.data[at + 12 : at + 16], "little")
            whole = 16 + (fields + 7) // 8 * 8 + body
            if len(self.data) < at + whole:
                break
            serial = int.from_bytes(self.data[at + 8 : at + 12], "little")
            found.append((self.data[at + 1], serial, self.data[at + 16 : at + 16 + fields]))
            at += whole
        self.data = self.data[at:]
        return found


def answers_to(stream):
    """What the bus says to what came of a client."""
    said = b""
    while stream.in_lines and b"\r\n" in stream.data:
        line, stream.data = stream.data.split(b"\r\n", 1)
        line = line.lstrip(b"\0")
        if line.startswith(b"AUTH"):
            said += b"OK 00112233445566778899aabbccddeeff\r\n"
        elif line.startswith(b"BEGIN"):
            stream.in_lines = False
        else:
            said += b"ERROR\r\n"
    if stream.in_lines:
        return said
    for kind, serial, fields in stream.messages():
        if kind != CALL:
            continue
        if b"Hello" in fields:
            said += message(RETURN, 1, texts(":1.5"), reply=serial, sender=BUS_NAME, signature="s")
        elif b"GetNameOwner" in fields:
            said += message(RETURN, 1, texts(":1.9"), reply=serial, sender=BUS_NAME, signature="s")
        elif BUS_NAME.encode() in fields:
            said += message(RETURN, 1, reply=serial, sender=BUS_NAME)
        else:
            said += message(RETURN, 1, reply=serial, sender=":1.9")
    return said


def serve_bus(listener):
    selector = selectors.DefaultSelector()
    selector.register(listener, selectors.EVENT_READ, None)
    while True:
        for key, _ in selector.select():
            if key.data is None:
                sock, _ = listener.accept()
                selector.register(sock, selectors.EVENT_READ, Stream(sock, True))
                continue
            stream = key.data
            try:
                data = stream.sock.recv(262144)
            except OSError:
                data = b""
            if not data:
                selector.unregister(stream.sock)
                stream.sock.close()
                continue
            stream.data += data
            said = answers_to(stream)
            if said:
                stream.sock.sendall(said)


class Client:
    def __init__(self, path):
        self.sock = socket.socket(socket.AF_UNIX)
        self.sock.connect(path)
        uid = str(os.getuid()).encode().hex().encode()
        self.sock.sendall(b"\0AUTH EXTERNAL " + uid + b"\r\n")
        while not self.sock.recv(4096).endswith(b"\r\n"):
            pass
        self.sock.sendall(b"BEGIN\r\n")
        self.stream = Stream(self.sock, False)
        self.serial = 1
        hello = message(CALL, 1, path="/org/freedesktop/DBus", interface=BUS_NAME, member="Hello", destination=BUS_NAME)
        self.sock.sendall(hello)
        self.wait(1)

    def wait(self, count):
        while count:
            data = self.sock.recv(262144)
            if not data:
                sys.exit("a session ended")
            self.stream.data += data
            count -= len(self.stream.messages())

    def burst(self, count):
        calls = []
        for _ in range(count):
            self.serial += 1
            calls.append(call(self.serial, NAME))
        sender = threading.Thread(target=self.sock.sendall, args=(b"".join(calls),))
        sender.start()
        self.wait(count)
        sender.join()


def resident(pid):
    with open("/proc/%d/status" % pid, encoding="utf-8") as file:
        for line in file:
            if line.startswith("VmRSS:"):
                return int(line.split()[1])
    raise ValueError(pid)


def measure(program, sessions, burst, folder):
    """KB for each session after its start, and after its bursts."""
    bus, path = os.path.join(folder, "bus"), os.path.join(folder, "proxy")
    process = subprocess.Popen([program, "unix:path=" + bus, path, "--filter", "--talk=" + NAME])
    try:
        while not os.path.exists(path):
            time.sleep(0.01)
        Client(path).sock.close()
        time.sleep(0.2)
        first = resident(process.pid)
        clients = [Client(path) for _ in range(sessions)]
        time.sleep(0.3)
        idle = resident(process.pid)
        for client in clients:
            for _ in range(ROUNDS):
                client.burst(burst)
        time.sleep(0.5)
        after = resident(process.pid)
        for client in clients:
            client.sock.close()
        return (idle - first) / sessions, (after - first) / sessions
    finally:
        process.terminate()
        process.wait()
        if os.path.exists(path):
            os.remove(path)


def main():
    parser = argparse.ArgumentParser(description=__doc__)
    parser.add_argument("--program", action="append", help="a proxy to measure; may be given more than once")
    parser.add_argument("--sessions", type=int, default=200)
    options = parser.parse_args()
    _, most = resource.getrlimit(resource.RLIMIT_NOFILE)
    resource.setrlimit(resource.RLIMIT_NOFILE, (most, most))
    with tempfile.TemporaryDirectory() as folder:
        listener = socket.socket(socket.AF_UNIX)
        listener.bind(os.path.join(folder, "bus"))
        listener.listen(1024)
        threading.Thread(target=serve_bus, args=(listener,), daemon=True).start()
        print("| proxy | idle, KB | after bursts of 64 | of 256 | of 1,024 |")
        print("|---|---|---|---|---|")
        for program in options.program or [os.path.join(HERE, "../crates/zamtigarn/out/zamtigarn")]:
            cells = [measure(os.path.abspath(program), options.sessions, burst, folder) for burst in (64, 256, 1024)]
            name = os.path.basename(program)
            print("| %s | %.1f | %.1f | %.1f | %.1f |" % (name, cells[0][0], *[after for _, after in cells]))


if __name__ == "__main__":
    main()
