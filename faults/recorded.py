#!/usr/bin/env python3
"""Records sessions of real clients before a real bus, captures what the proxy writes at both of its ends, and compares it with
what a replay of the recording gives. README.md says what is looked for."""
import argparse
import os
import socket
import struct
import subprocess
import sys
import tempfile
import threading
import time

HERE = os.path.dirname(os.path.abspath(__file__))
POLICY = ["--filter", "--talk=org.test.Echo"]
NODE = """<node><interface name='org.test.I'>
<method name='Echo'><arg type='s' direction='in'/><arg type='s' direction='out'/></method>
<signal name='Tick'><arg type='u'/></signal>
<property name='Volume' type='u' access='read'/>
</interface></node>"""

# A service that owns org.test.Echo, echoes, and sends a signal after each call.
SERVICE = """
import sys
from gi.repository import Gio, GLib
node = Gio.DBusNodeInfo.new_for_xml(sys.argv[2])
flags = Gio.DBusConnectionFlags.AUTHENTICATION_CLIENT | Gio.DBusConnectionFlags.MESSAGE_BUS_CONNECTION
bus = Gio.DBusConnection.new_for_address_sync(sys.argv[1], flags, None, None)
def called(connection, sender, path, interface, method, arguments, invocation):
    invocation.return_value(arguments)
    connection.emit_signal(None, "/org/test", "org.test.I", "Tick", GLib.Variant("(u)", (1,)))
bus.register_object("/org/test", node.interfaces[0], called, lambda *ignored: GLib.Variant("u", 5), None)
bus.call_sync("org.freedesktop.DBus", "/", "org.freedesktop.DBus", "RequestName", GLib.Variant("(su)", ("org.test.Echo", 0)), None, 0, -1, None)
print("ready", flush=True)
GLib.MainLoop().run()
"""

# An application that calls, waits for signals, reads a property, and asks for a name that it doesn't see.
CLIENT = """
import os
from gi.repository import Gio, GLib
flags = Gio.DBusConnectionFlags.AUTHENTICATION_CLIENT | Gio.DBusConnectionFlags.MESSAGE_BUS_CONNECTION
bus = Gio.DBusConnection.new_for_address_sync(os.environ["DBUS_SESSION_BUS_ADDRESS"], flags, None, None)
ticks = []
loop = GLib.MainLoop()
def tick(*ignored):
    ticks.append(1)
    if len(ticks) == 20:
        loop.quit()
bus.signal_subscribe("org.test.Echo", "org.test.I", "Tick", None, None, 0, tick)
def call(name, path, interface, method, arguments):
    return bus.call_sync(name, path, interface, method, arguments, None, 0, -1, None)
for number in range(20):
    text = "echo %d " % number + "x" * (number * 500)
    assert call("org.test.Echo", "/org/test", "org.test.I", "Echo", GLib.Variant("(s)", (text,))).unpack() == (text,)
assert call("org.test.Echo", "/org/test", "org.freedesktop.DBus.Properties", "Get", GLib.Variant("(ss)", ("org.test.I", "Volume"))).unpack() == (5,)
try:
    call("org.test.Hidden", "/", "org.test.I", "Echo", None)
    raise SystemExit("a hidden name answered")
except GLib.Error:
    pass
if len(ticks) < 20:
    loop.run()
bus.close_sync(None)
"""

CLIENTS = [
    ["gdbus", "call", "--session", "--dest", "org.test.Echo", "--object-path", "/org/test", "--method", "org.test.I.Echo", "hello"],
    ["gdbus", "introspect", "--session", "--dest", "org.test.Echo", "--object-path", "/org/test"],
    ["busctl", "--user", "call", "org.test.Echo", "/org/test", "org.test.I", "Echo", "s", "hello"],
    ["busctl", "--user", "list", "--no-pager"],
    ["busctl", "--user", "introspect", "org.test.Echo", "/org/test", "--no-pager"],
    ["dbus-send", "--session", "--print-reply", "--dest=org.test.Echo", "/org/test", "org.test.I.Echo", "string:hello"],
    ["/usr/bin/python3", "-c", CLIENT],
]


class Wrong(Exception):
    pass


def listen_at(path):
    listener = socket.socket(socket.AF_UNIX)
    listener.bind(path)
    listener.listen(64)
    return listener


class Connection:
    """A connection that is passed on, and what either end wrote."""

    def __init__(self, near, path):
        self.near = near
        self.far = socket.socket(socket.AF_UNIX)
        self.far.connect(path)
        self.from_near, self.from_far = bytearray(), bytearray()
        self.threads = [
            threading.Thread(target=pump, args=(self.near, self.far, self.from_near)),
            threading.Thread(target=pump, args=(self.far, self.near, self.from_far)),
        ]
        for thread in self.threads:
            thread.start()

    def join(self):
        for thread in self.threads:
            thread.join(30)
            if thread.is_alive():
                raise Wrong("a connection doesn't end")


def pump(source, target, got):
    """Passes on all bytes, and goes on reading if the target is gone, so that no byte is missed."""
    while True:
        try:
            data = source.recv(65536)
        except OSError:
            data = b""
        if not data:
            break
        got += data
        try:
            target.sendall(data)
        except OSError:
            pass
    try:
        target.shutdown(socket.SHUT_WR)
    except OSError:
        pass


class Relay:
    """Passes connections at a path on to another, in the order in which they come."""

    def __init__(self, path, target):
        self.connections = []
        self.listener, self.target = listen_at(path), target
        threading.Thread(target=self.run, daemon=True).start()

    def run(self):
        while True:
            near, _ = self.listener.accept()
            self.connections.append(Connection(near, self.target))


def wait_for(path):
    for _ in range(500):
        if os.path.exists(path):
            return
        time.sleep(0.01)
    raise Wrong("nothing listens at " + path)


def records(output):
    """The records of a replay's output, by session and kind."""
    found, place = {}, 0
    while place < len(output):
        kind = output[place]
        session, length = struct.unpack_from("<II", output, place + 1)
        found[session, kind] = output[place + 9 : place + 9 + length]
        place += 9 + length
    return found


def records_of_one(output):
    found, place = {}, 0
    while place < len(output):
        (length,) = struct.unpack_from("<I", output, place + 1)
        found[output[place]] = output[place + 5 : place + 5 + length]
        place += 5 + length
    return found


class Rig:
    """A private bus with a service, a proxy between two relays, and a folder for all of it."""

    def __init__(self, program, folder):
        self.program, self.folder = program, folder
        self.bus = subprocess.Popen(
            ["dbus-daemon", "--session", "--nofork", "--nosyslog", "--nopidfile", "--address=unix:path=" + self.path("bus")],
            stderr=subprocess.DEVNULL,
        )
        wait_for(self.path("bus"))
        self.service = subprocess.Popen(["/usr/bin/python3", "-c", SERVICE, "unix:path=" + self.path("bus"), NODE], stdout=subprocess.PIPE)
        if self.service.stdout.readline() != b"ready\n":
            raise Wrong("the service didn't start")

    def path(self, name):
        return os.path.join(self.folder, name)

    def stop(self):
        for process in (self.service, self.bus):
            process.terminate()
            process.wait()

    def serve(self, name, record, clients):
        """Serves all clients at the same time, and gives the connections at either end, the status and the line."""
        to_bus, of_client = self.path(name + ".bus"), self.path(name + ".client")
        proxy_path = self.path(name + ".proxy")
        bus_end = Relay(to_bus, self.path("bus"))
        words = [self.program, "unix:path=" + to_bus, proxy_path] + POLICY + ["--record=" + record, "--sessions=%d" % len(clients)]
        proxy = subprocess.Popen(words, stderr=subprocess.PIPE)
        wait_for(proxy_path)
        client_end = Relay(of_client, proxy_path)
        environment = dict(os.environ, DBUS_SESSION_BUS_ADDRESS="unix:path=" + of_client)
        running = [subprocess.Popen(client, env=environment, stdout=subprocess.DEVNULL, stderr=subprocess.PIPE) for client in clients]
        for client, process in zip(clients, running):
            _, line = process.communicate(timeout=60)
            if process.returncode != 0:
                raise Wrong("%s ended with %d: %s" % (client[0], process.returncode, line))
        _, line = proxy.communicate(timeout=60)
        for connection in client_end.connections + bus_end.connections:
            connection.join()
        return client_end.connections, bus_end.connections, proxy.returncode, line


def run(words):
    done = subprocess.run(words, stdout=subprocess.PIPE, stderr=subprocess.PIPE)
    if done.returncode != 0:
        raise Wrong("%s ended with %d: %s" % (words[1:], done.returncode, done.stderr))
    return done.stdout


def compared(program, folder, recording, client_end, bus_end):
    """Compares the captured bytes with the replay of the whole recording, with that of each session alone, and with the list."""
    policy = os.path.join(folder, "policy")
    with open(policy, "wb") as file:
        file.write(b"".join(word.encode() + b"\0" for word in POLICY))
    whole = records(run([program, "replay", policy, recording]))
    lines = run([program, "sessions", recording]).decode().splitlines()
    total = 0
    if len(lines) != len(client_end):
        raise Wrong("%d lines for %d sessions" % (len(lines), len(client_end)))
    for number, (client, bus, line) in enumerate(zip(client_end, bus_end, lines), 1):
        alone = os.path.join(folder, "session.%d" % number)
        with open(alone, "wb") as file:
            file.write(run([program, "session", recording, str(number)]))
        one = records_of_one(run([program, "replay", policy, alone]))
        for what, captured, kind in (("bus", bus.from_near, 16), ("client", client.from_far, 17)):
            if bytes(captured) != whole.get((number, kind), b"") or bytes(captured) != one.get(kind, b""):
                raise Wrong("session %d: %d bytes went to the %s, and the replays give %d and %d" % (
                    number, len(captured), what, len(whole.get((number, kind), b"")), len(one.get(kind, b""))))
            total += len(captured)
        words = line.split()
        if words[:2] != ["session", str(number)] or int(words[3]) > len(client.from_near) or int(words[5]) > len(bus.from_far):
            raise Wrong("%s, but %d and %d bytes came" % (line, len(client.from_near), len(bus.from_far)))
    return total


def try_comparison(rig, folder, count):
    clients = CLIENTS * count
    recording = rig.path("recording")
    client_end, bus_end, status, line = rig.serve("whole", recording, clients)
    if status != 0 or line:
        raise Wrong("status %d: %s" % (status, line))
    total = compared(rig.program, folder, recording, client_end, bus_end)
    print("%d sessions at once, %d bytes written to both ends: all as the replays give them" % (len(clients), total))


def try_full(rig, name, record):
    """A file that takes no more: each session is served as ever, and then the status is 4 with the file's line."""
    client_end, _, status, line = rig.serve(name.replace(" ", "-"), record, CLIENTS)
    if status != 4 or line != b"error: file " + record.encode() + b"\n":
        raise Wrong("%s: status %d: %s" % (record, status, line))
    print("%s: status 4, and %d sessions served" % (name, len(client_end)))


def try_full_device(rig):
    """A file that takes nothing from the start: the status is 4 with its line, and nothing is listened at."""
    path = rig.path("full.proxy")
    words = [rig.program, "unix:path=" + rig.path("bus"), path] + POLICY + ["--record=/dev/full", "--sessions=1"]
    done = subprocess.run(words, stdout=subprocess.DEVNULL, stderr=subprocess.PIPE, timeout=60)
    if done.returncode != 4 or done.stderr != b"error: file /dev/full\n" or os.path.exists(path):
        raise Wrong("/dev/full: status %d: %s" % (done.returncode, done.stderr))
    print("/dev/full: status 4 before anything is listened at")


def try_small_disk(rig):
    small = rig.path("small")
    os.mkdir(small)
    if subprocess.run(["mount", "-t", "tmpfs", "-o", "size=16k", "tmpfs", small], stderr=subprocess.DEVNULL).returncode != 0:
        print("a full file system: not tried, for want of leave to mount one")
        return
    try:
        try_full(rig, "a full file system", os.path.join(small, "recording"))
    finally:
        subprocess.run(["umount", small])


def main():
    parser = argparse.ArgumentParser()
    parser.add_argument("--program", default=os.path.join(HERE, "../crates/zamtigarn/out/zamtigarn"))
    parser.add_argument("--count", type=int, default=4, help="how often each client runs at the same time")
    given = parser.parse_args()
    with tempfile.TemporaryDirectory() as folder:
        rig = Rig(os.path.abspath(given.program), folder)
        try:
            try_comparison(rig, folder, given.count)
            try_full_device(rig)
            try_small_disk(rig)
        except Wrong as wrong:
            sys.exit("wrong: %s" % wrong)
        finally:
            rig.stop()


if __name__ == "__main__":
    main()
