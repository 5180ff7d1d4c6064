#!/usr/bin/env python3
"""Refuses memory at each place of a run, one place a run, and lets each system call of a served session fail, one a run.
README.md says what is looked for."""
import argparse
import itertools
import os
import re
import select
import socket
import subprocess
import sys
import tempfile
import time

import sessions
from sessions import CLIENT, SERVER

HERE = os.path.dirname(os.path.abspath(__file__))
ERRORS = ["EINTR", "EAGAIN", "ECONNRESET", "ENOMEM", "EMFILE"]
CALLS = ["read", "readv", "recvfrom", "write", "writev", "sendto", "accept4", "socket", "connect", "epoll_create1", "epoll_ctl", "epoll_wait"]
STATUSES = {0: "", 5: r"error: (listen|wait|standard streams)\n", 8: r"error: memory\n"}


class Wrong(Exception):
    pass


def is_front(part, whole):
    return whole[: len(part)] == part


# ---- a session over sockets


class Peer:
    """One end of a link, and what it got."""

    def __init__(self, link):
        link.setblocking(False)
        self.link, self.got, self.over = link, b"", False

    def take(self):
        try:
            data = self.link.recv(65536)
        except BlockingIOError:
            return
        except OSError:
            data = b""
        self.got += data
        self.over = not data

    def give(self, data):
        try:
            self.link.send(data)
        except OSError:
            pass


def listen_at(path):
    listener = socket.socket(socket.AF_UNIX)
    listener.bind(path)
    listener.listen(8)
    listener.setblocking(False)
    return listener


def connected(listener):
    try:
        return listener.accept()[0]
    except BlockingIOError:
        return None


def wait_until(done, seconds):
    """Whether it is so before the time is over."""
    end = time.monotonic() + seconds
    while not done():
        if time.monotonic() > end:
            return False
        time.sleep(0.001)
    return True


class Session:
    """A client's session with a stand-in for a bus, played piece by piece."""

    def __init__(self, listener, path, pieces):
        self.listener, self.path, self.pieces = listener, path, pieces
        self.client = self.bus = None

    def begin(self):
        """Whether the client is connected; its path may be there a moment before it is listened at."""
        link = socket.socket(socket.AF_UNIX)
        if not wait_until(lambda: link.connect_ex(self.path) == 0, 0.5):
            link.close()
            return False
        self.client = Peer(link)
        return True

    def pump(self, seconds, enough):
        """Takes what comes, until that is enough, the client's link is over, or the time is."""
        end = time.monotonic() + seconds
        while True:
            if self.bus is None:
                link = connected(self.listener)
                self.bus = Peer(link) if link else None
            peers = [peer for peer in (self.client, self.bus) if peer and not peer.over]
            if enough() or self.client.over or time.monotonic() > end:
                return
            for link in select.select([peer.link for peer in peers] + ([] if self.bus else [self.listener]), [], [], 0.01)[0]:
                for peer in peers:
                    if peer.link is link:
                        peer.take()

    def got(self):
        return (self.bus.got if self.bus else b"", self.client.got)

    def state(self):
        return self.got() + (self.client.over,)

    def play(self, expected, patience):
        """Gives each piece when what the pieces before it bring has come; `expected` are the states after each piece."""
        for number, (side, data) in enumerate(self.pieces):
            if side == SERVER:
                self.pump(patience, lambda: self.bus is not None)
            peer = self.client if side == CLIENT else self.bus
            if peer is None or self.client.over:
                break
            peer.give(data)
            wanted = expected[number] if expected else None
            self.pump(patience, lambda: wanted is not None and self.state() == wanted)
            yield self.state()
            # A piece that came behind one without its effect could be read before that one, and the log would have another order.
            if wanted is not None and self.state() != wanted:
                break
        self.client.link.close()
        self.client.over = True
        if self.bus:
            wait_until(lambda: (self.bus.take(), self.bus.over)[1], patience)
            self.bus.link.close()
        # The link to the bus of a session that ended at once is no other session's.
        link = connected(self.listener)
        while link:
            link.close()
            link = connected(self.listener)


class Run:
    """What became of one run of a proxy line."""

    def __init__(self, program, words, plays, environment=None, inject=None, expected=None, patience=0.5):
        with tempfile.TemporaryDirectory() as folder:
            path, trace = os.path.join(folder, "proxy"), os.path.join(folder, "trace")
            listener = listen_at(os.path.join(folder, "bus"))
            command = [program, "unix:path=" + os.path.join(folder, "bus"), path] + words + ["--sessions=%d" % len(plays)]
            if inject is not None:
                command = ["strace", "-qq", "-o", trace, "-e", "trace=all"] + (["-e", inject] if inject else []) + command
            count = os.path.join(folder, "count")
            process = subprocess.Popen(command, env=dict(os.environ, COUNT=count, **(environment or {})), stdout=subprocess.PIPE, stderr=subprocess.PIPE)
            self.steps, self.got = [], []
            wait_until(lambda: os.path.exists(path) or process.poll() is not None, 10)
            for number, pieces in enumerate(plays):
                session = Session(listener, path, pieces)
                if process.poll() is not None or not session.begin():
                    break
                self.steps.append(list(session.play(expected[number] if expected else None, patience)))
                self.got.append(session.got())
            # A client that was let go before it was a session doesn't count, so that others come until so many were served.
            for _ in plays:
                if not wait_until(lambda: process.poll() is not None, 0.5):
                    session = Session(listener, path, [])
                    if session.begin():
                        list(session.play(None, patience))
            try:
                out, err = process.communicate(timeout=10)
            except subprocess.TimeoutExpired:
                process.terminate()
                out, err = process.communicate()
                raise Wrong("the run doesn't end: " + err.decode(errors="replace"))
            finally:
                listener.close()
            self.status, self.out, self.err = process.returncode, out, err.decode(errors="replace")
            self.calls = open(trace).read().splitlines() if inject is not None else []
            self.growths = int(open(count).read()) if os.path.exists(count) else 0


def check(run, clean):
    """The run's answer is one that is stated, and what it wrote is a front of what it writes with no fault."""
    if run.status not in STATUSES:
        raise Wrong("status %d: %s" % (run.status, run.err))
    for number, got in enumerate(run.got):
        for side, part, whole in zip(("bus", "client"), got, clean.got[number]):
            if not is_front(part, whole):
                raise Wrong("the %s of session %d got what is no front: %r" % (side, number + 1, part))
    lines = run.err
    if run.status:
        found = re.search(STATUSES[run.status] + r"\Z", lines)
        if not found:
            raise Wrong("status %d without its line: %r" % (run.status, lines))
        lines = lines[: found.start()]
    whole = logs(clean.err).values()
    for log in logs(lines).values():
        if not any(is_front(log, other) for other in whole):
            raise Wrong("the log of a session is no front: %r" % log)


def logs(lines):
    """The lines of each session, without its number."""
    found = {}
    for line in lines.splitlines(True):
        number, rest = line.split(" ", 1)
        found[number] = found.get(number, "") + rest
    return found


def told(table, fault, run, clean):
    whole = all(got == other for got, other in zip(run.got, clean.got)) and len(run.got) == len(clean.got)
    tell(table, fault, run.status, whole)


def tell(table, fault, status, whole):
    counts = table.setdefault((fault, status), [0, 0])
    counts[0 if whole else 1] += 1


def show(table):
    print("| what fails | error | status | all bytes | a beginning |\n|---|---|---|---|---|")
    for (fault, status), counts in sorted(table.items()):
        print("| %s | %d | %d | %d |" % (fault, status, *counts))


# ---- memory refused


def replayed(program, folder, number, words):
    policy, recording = os.path.join(folder, "policy"), os.path.join(folder, "recording")
    open(policy, "wb").write(b"".join(word.encode() + b"\0" for word in words))
    open(recording, "wb").write(sessions.recording(sessions.PORTAL_SESSION))
    environment = dict(os.environ, LD_PRELOAD=os.path.join(folder, "refuse.so"), COUNT=os.path.join(folder, "count"), REFUSE=str(number))
    return subprocess.run([program, "replay", policy, recording], env=environment, stdout=subprocess.PIPE, stderr=subprocess.PIPE, timeout=20)


def memory_of_replay(program, folder, table):
    words = sessions.PORTAL_WORDS + ["--log"]
    clean = replayed(program, folder, 0, words)
    if clean.returncode or not clean.stdout:
        raise Wrong("the replay itself: %d %r" % (clean.returncode, clean.stderr))
    growths = int(open(os.path.join(folder, "count")).read())
    for number in range(1, growths + 1):
        run = replayed(program, folder, number, words)
        err = run.stderr.decode(errors="replace")
        if run.returncode == 0:
            good = run.stdout == clean.stdout and run.stderr == clean.stderr
        else:
            lines = err[: -len("error: memory\n")]
            good = run.returncode == 8 and not run.stdout and err.endswith("error: memory\n") and is_front(lines, clean.stderr.decode()) and (not lines or lines.endswith("\n"))
        if not good:
            raise Wrong("replay, growth %d: status %d, %r" % (number, run.returncode, err))
        tell(table, "a growth of memory in `replay` | refused", run.returncode, run.returncode == 0)


def memory_of_sessions(program, folder, table):
    plays = [[(CLIENT, b"A")], sessions.PORTAL_SESSION]
    words = sessions.PORTAL_WORDS + ["--log"]
    preload = {"LD_PRELOAD": os.path.join(folder, "refuse.so")}
    clean = Run(program, words, plays, dict(preload, REFUSE="0"))
    check(clean, clean)
    for number in itertools.count(1):
        run = Run(program, words, plays, dict(preload, REFUSE=str(number)), expected=clean.steps, patience=1)
        try:
            check(run, clean)
        except Wrong as wrong:
            raise Wrong("two sessions, growth %d: %s" % (number, wrong))
        if run.growths < number:
            break
        told(table, "a growth of memory in two sessions | refused", run, clean)


# ---- system calls that fail


def name_of(line):
    return line.split("(", 1)[0]


def failing_calls(program, table):
    words = sessions.PORTAL_WORDS + ["--log"]
    plays = [sessions.PORTAL_SESSION]
    clean = Run(program, words, plays, inject="")
    check(clean, clean)
    names = [name_of(line) for line in clean.calls]
    # Faults before the program's own first call would be those of the loader.
    first = names.index("epoll_create1") if "epoll_create1" in names else 0
    for call in CALLS:
        for error in ERRORS:
            for number in itertools.count(names[:first].count(call) + 1):
                run = Run(program, words, plays, inject="inject=%s:error=%s:when=%d" % (call, error, number), expected=clean.steps, patience=1)
                try:
                    check(run, clean)
                    if len(run.calls) > 3 * len(clean.calls) + 100:
                        raise Wrong("it spins: %d system calls" % len(run.calls))
                except Wrong as wrong:
                    raise Wrong("%s %d fails with %s: %s" % (call, number, error, wrong))
                # There were no more calls of the kind.
                if not any("INJECTED" in line for line in run.calls):
                    break
                told(table, "`%s` | `%s`" % (call, error), run, clean)


def main():
    words = argparse.ArgumentParser(description=__doc__)
    words.add_argument("--program", default=os.path.join(HERE, "..", "crates", "zamtigarn", "out", "zamtigarn"))
    words.add_argument("what", nargs="*", default=["memory", "calls"], help="memory, calls, or both")
    given = words.parse_args()
    program, table = os.path.abspath(given.program), {}
    try:
        with tempfile.TemporaryDirectory() as folder:
            if "memory" in given.what:
                subprocess.run(["cc", "-shared", "-fPIC", "-O2", "-o", os.path.join(folder, "refuse.so"), os.path.join(HERE, "refuse.c"), "-ldl"], check=True)
                memory_of_replay(program, folder, table)
                memory_of_sessions(program, folder, table)
            if "calls" in given.what:
                failing_calls(program, table)
    except Wrong as wrong:
        print("wrong: %s" % wrong, file=sys.stderr)
        return 1
    finally:
        show(table)
    return 0


if __name__ == "__main__":
    sys.exit(main())
