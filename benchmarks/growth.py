#!/usr/bin/env python3
"""How the cost of a message grows with the policy and with what the proxy keeps, as instructions that callgrind counts.

Each row plays recordings that this script makes through `replay`. What a message costs is the difference between
recordings that have more and more of the same messages, so that reading the policy and what comes first don't count."""
import argparse
import os
import random
import re
import struct
import subprocess
import sys
import tempfile
import time

SIZES = [1, 100, 10000, 60000]
CALL, RETURN, ERROR, SIGNAL = 1, 2, 3, 4
CLIENT, BUS = 0, 1
BUS_NAME = "org.freedesktop.DBus"

# The codes and types of header fields (D-Bus Specification, "Header Fields").
FIELDS = {
    "path": (1, "o"),
    "interface": (2, "s"),
    "member": (3, "s"),
    "error": (4, "s"),
    "reply": (5, "u"),
    "destination": (6, "s"),
    "sender": (7, "s"),
    "signature": (8, "g"),
}


def padded(data, to):
    return data + bytes(-len(data) % to)


def text(value):
    data = value.encode()
    return struct.pack("<I", len(data)) + data + b"\0"


def texts(*values):
    """A body of texts, one behind the other."""
    body = b""
    for value in values:
        body = padded(body, 4) + text(value)
    return body


def list_of(values):
    """A body that is one array of texts."""
    elements = texts(*values)
    return struct.pack("<I", len(elements)) + elements


def message(kind, serial, body=b"", **fields):
    """A message in little order (D-Bus Specification, "Message Format")."""
    table = b""
    for name, value in fields.items():
        code, form = FIELDS[name]
        table = padded(table, 8) + bytes([code, 1]) + form.encode() + b"\0"
        if form == "u":
            table += struct.pack("<I", value)
        elif form == "g":
            table += bytes([len(value)]) + value.encode() + b"\0"
        else:
            table += text(value)
    head = struct.pack("<cBBBIII", b"l", kind, 0, 1, len(body), serial, len(table))
    return padded(head + table, 8) + body


def call(serial, name, member="M"):
    return message(CALL, serial, path="/org/a/Object", interface="org.a.I", member=member, destination=name)


def answer(reply, serial=1, **more):
    return message(RETURN, serial, reply=reply, sender=":1.9", **more)


def failed(reply):
    return message(ERROR, 1, texts("nobody"), reply=reply, sender=BUS_NAME, error=BUS_NAME + ".Error.NameHasNoOwner", signature="s")


def owner_changed(name, before, after):
    return message(SIGNAL, 1, texts(name, before, after), path="/org/freedesktop/DBus", interface=BUS_NAME,
                   member="NameOwnerChanged", sender=BUS_NAME, signature="sss")


def signal(sender):
    return message(SIGNAL, 1, path="/org/a/Object", interface="org.a.I", member="Changed", sender=sender)


def recording(events):
    """A recording of one session whose streams begin with messages."""
    out = [b"DBPR\1\0"]
    for side, data in events:
        out.append(bytes([side]) + struct.pack("<I", len(data)) + data)
    return b"".join(out)


def recording_of_many(events):
    """One of many sessions."""
    out = [b"DBPR\2\0"]
    for session, side, data in events:
        out.append(bytes([side]) + struct.pack("<II", session, len(data)) + data)
    return b"".join(out)


class Replays:
    def __init__(self, program, folder):
        self.program = program
        self.policy = os.path.join(folder, "policy")
        self.recording = os.path.join(folder, "recording")

    def write(self, words, played):
        with open(self.policy, "wb") as file:
            file.write(b"".join(word.encode() + b"\0" for word in ["--filter", *words]))
        with open(self.recording, "wb") as file:
            file.write(played)

    def count(self, words, played):
        """The instructions of a replay."""
        self.write(words, played)
        line = ["valgrind", "--tool=callgrind", "--callgrind-out-file=/dev/null", self.program, "replay", self.policy, self.recording]
        done = subprocess.run(line, stdout=subprocess.DEVNULL, stderr=subprocess.PIPE, check=False)
        found = re.search(rb"Collected : (\d+)", done.stderr)
        if done.returncode or not found:
            sys.exit("replay: status %d\n%s" % (done.returncode, done.stderr.decode(errors="replace")))
        return int(found.group(1))

    def milliseconds(self, words, played, rounds=7):
        """The least time of a replay, with the start of the process."""
        self.write(words, played)
        best = None
        for _ in range(rounds):
            start = time.perf_counter()
            subprocess.run([self.program, "replay", self.policy, self.recording], stdout=subprocess.DEVNULL, check=True)
            took = (time.perf_counter() - start) * 1000
            best = took if best is None else min(best, took)
        return best


# ---- the rows: the policy's words, and the cost of a message


def slope(replays, words, first, more, count, whole=recording):
    """The instructions of each of `count` messages: `more(n)` gives the events of the first n of them.

    Of the three steps between four lengths it is the middle one: what is done once on the way, as moving a buffer that grew
    or putting freed memory together, falls into one step alone."""
    counts = [replays.count(words, whole(first + more(k * count))) for k in (1, 2, 3, 4)]
    steps = sorted(after - before for before, after in zip(counts, counts[1:]))
    return steps[1] / count


def names(n, option="talk"):
    return ["--%s=org.a.N%d" % (option, k) for k in range(1, n + 1)]


def pairs(name, member="M"):
    def more(count):
        events = []
        for serial in range(1, count + 1):
            events += [(CLIENT, call(serial, name, member)), (BUS, answer(serial))]
        return events
    return more


def refused(name):
    def more(count):
        events = []
        for serial in range(1, count + 1):
            events += [(CLIENT, call(serial, name)), (BUS, failed(serial))]
        return events
    return more


def entries_of_names(replays, n):
    return slope(replays, names(n), [], pairs("org.a.N%d" % n), 400)


def entries_of_seen_names(replays, n):
    return slope(replays, names(n, "see"), [], refused("org.a.N%d" % n), 400)


def rules_on_one_name(replays, n):
    words = ["--call=org.a.Ruled=org.a.I.M%d@/org/a/Object" % k for k in range(1, n + 1)]
    return slope(replays, words, [], pairs("org.a.Ruled", "M%d" % n), 40)


def rules_on_many_names(replays, n):
    words = ["--call=org.a.N%d=org.a.I.M" % k for k in range(1, n + 1)]
    return slope(replays, words, [], pairs("org.a.N%d" % n), 400)


def owners(n):
    return [(BUS, owner_changed("org.a.N%d" % k, "", ":1.%d" % (k + 10))) for k in range(1, n + 1)]


def signals_of_known_senders(replays, n):
    def more(count):
        return [(BUS, signal(":1.%d" % (k * 7919 % n + 11))) for k in range(count)]
    return slope(replays, ["--talk=org.a.*"], owners(n), more, 400)


def owners_of_named_entries(replays, n):
    """An owner that is learned, where all names of the policy have one already."""
    def more(count):
        return [(BUS, owner_changed("org.a.N%d" % (k * 7919 % n + 1), "", ":1.%d" % (k * 7919 % n + 11))) for k in range(count)]
    return slope(replays, names(n), owners(n), more, 400)


def outstanding(order):
    def row(replays, n):
        def more(rounds):
            events = []
            serial = 0
            for _ in range(rounds):
                serials = list(range(serial + 1, serial + n + 1))
                events += [(CLIENT, call(s, "org.a.Name")) for s in serials]
                events += [(BUS, answer(s)) for s in order(serials)]
                serial += n
            return events
        rounds = max(1, 1000 // n)
        return slope(replays, ["--talk=org.a.Name"], [], more, rounds) / n
    return row


def shuffled(serials):
    random.Random(len(serials)).shuffle(serials)
    return serials


def names_in_a_list(replays, n):
    listed = []
    for k in range(1, n + 1):
        listed += ["org.a.N%d" % k, "org.hidden.N%d" % k]
    ask = message(CALL, 1, path="/org/freedesktop/DBus", interface=BUS_NAME, member="ListNames", destination=BUS_NAME)
    told = message(RETURN, 1, list_of(listed), reply=1, sender=BUS_NAME, signature="as")
    none = message(RETURN, 1, list_of([]), reply=1, sender=BUS_NAME, signature="as")
    with_list = replays.count(names(n), recording([(CLIENT, ask), (BUS, told)]))
    without = replays.count(names(n), recording([(CLIENT, ask), (BUS, none)]))
    return (with_list - without) / (2 * n)


def sessions(replays, n):
    def more(count):
        events = []
        serials = {}
        for k in range(count):
            session = k * 7919 % n + 1
            serials[session] = serials.get(session, 1) + 1
            serial = serials[session]
            events += [(session, CLIENT, call(serial, "org.a.Name")), (session, BUS, answer(serial))]
        return events
    first = []
    for session in range(1, n + 1):
        first += [(session, CLIENT, call(1, "org.a.Name")), (session, BUS, answer(1))]
    return slope(replays, ["--talk=org.a.Name"], first, more, 400, recording_of_many)


ROWS = [
    ("entries that are names: a call to the last, and its answer", entries_of_names),
    ("entries that are seen names: a refused call to the last", entries_of_seen_names),
    ("rules on many names: a call by the last, and its answer", rules_on_many_names),
    ("rules on one name: a call by the last, and its answer", rules_on_one_name),
    ("unique names known: a shown signal of one", signals_of_known_senders),
    ("names with an owner: the same owner once more", owners_of_named_entries),
    ("calls outstanding, answered in order", outstanding(lambda serials: serials)),
    ("calls outstanding, answered in reverse", outstanding(lambda serials: serials[::-1])),
    ("calls outstanding, answered at random", outstanding(shuffled)),
    ("names in a list, half of them hidden: each name", names_in_a_list),
    ("sessions: a call in one of them, and its answer", sessions),
]


# ---- a session's start under a policy of names


def greeting(n, owned):
    """A Hello, and the bus's answers to it and to the proxy's own calls for n names."""
    hello = message(CALL, 1, path="/org/freedesktop/DBus", interface=BUS_NAME, member="Hello", destination=BUS_NAME)
    events = [(CLIENT, hello), (BUS, message(RETURN, 1, texts(":1.5"), reply=1, sender=BUS_NAME, signature="s"))]
    for k in range(1, n + 1):
        events.append((BUS, message(RETURN, 1, reply=2 * k, sender=BUS_NAME)))
        if owned:
            owner = message(RETURN, 1, texts(":1.%d" % (k + 10)), reply=2 * k + 1, sender=BUS_NAME, signature="s")
            events.append((BUS, owner))
        else:
            events.append((BUS, failed(2 * k + 1)))
    return recording(events)


def starts(replays):
    print("| names | without owners, ms | with owners, ms | ratio |")
    print("|---|---|---|---|")
    for n in [1000, 2000, 4000, 8000, 16000, 32000]:
        without = replays.milliseconds(names(n), greeting(n, False))
        owned = replays.milliseconds(names(n), greeting(n, True))
        print("| %s | %.1f | %.1f | %.2f |" % (format(n, ","), without, owned, owned / without), flush=True)


def curves(replays, only):
    print("| What grows, and what is counted | " + " | ".join(format(n, ",") for n in SIZES) + " |")
    print("|---|" + "---|" * len(SIZES))
    for name, row in ROWS:
        if only and not re.search(only, name):
            continue
        cells = [format(round(row(replays, n)), ",") for n in SIZES]
        print("| %s | %s |" % (name, " | ".join(cells)), flush=True)


def main():
    here = os.path.dirname(os.path.abspath(__file__))
    parser = argparse.ArgumentParser(description=__doc__)
    parser.add_argument("--program", default=os.path.join(here, "../crates/zamtigarn/out/zamtigarn"))
    parser.add_argument("--only", help="only the curves whose name this regular expression finds")
    parser.add_argument("--starts", action="store_true", help="the times of a session's start instead")
    options = parser.parse_args()
    with tempfile.TemporaryDirectory() as folder:
        replays = Replays(os.path.abspath(options.program), folder)
        if options.starts:
            starts(replays)
        else:
            curves(replays, options.only)


if __name__ == "__main__":
    main()
