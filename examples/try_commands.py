#!/usr/bin/env python3
"""Runs the commands of README.md, docs/TOOLS.md and the manual page as they are written, before a private bus with a
service of notifications.

try_commands.py [--show]    with --show what each block prints is shown, too

It needs dbus-daemon, gdbus and python3-gi of Debian, and the built program. A block that fails is named, and the status is 1."""
import os
import signal
import subprocess
import sys
import tempfile
import time

TOP = os.path.normpath(os.path.join(os.path.dirname(os.path.abspath(__file__)), ".."))
DOCUMENTS = ["README.md", "docs/TOOLS.md"]
STARTS = ("./zamtigarn", "printf ", "DBUS_SESSION_BUS_ADDRESS=")
# The files of the commands, which are removed before and after.
FILES = ["filtered-bus", "recorded-bus", "least-bus", "app.recording", "app.session", "app.policy", "app.output", "least.policy", "strict.policy"]
# What is asked of a proxy that the manual page's example starts.
LIST_NAMES = """ &
DBUS_SESSION_BUS_ADDRESS="unix:path=$XDG_RUNTIME_DIR/app/bus" gdbus call --session --dest org.freedesktop.DBus \\
    --object-path / --method org.freedesktop.DBus.ListNames"""
# A comparison may end with 7, the answer no.
COMPARISONS = (" twin ", " within ")

SERVICE = """
import sys
from gi.repository import Gio, GLib
node = Gio.DBusNodeInfo.new_for_xml('''<node><interface name="org.freedesktop.Notifications"><method name="GetServerInformation">
<arg type="s" direction="out"/><arg type="s" direction="out"/><arg type="s" direction="out"/><arg type="s" direction="out"/></method></interface></node>''')
flags = Gio.DBusConnectionFlags.AUTHENTICATION_CLIENT | Gio.DBusConnectionFlags.MESSAGE_BUS_CONNECTION
bus = Gio.DBusConnection.new_for_address_sync(sys.argv[1], flags, None, None)
def called(connection, sender, path, interface, method, arguments, invocation):
    invocation.return_value(GLib.Variant("(ssss)", ("tried", "nobody", "1", "1.2")))
bus.register_object("/org/freedesktop/Notifications", node.interfaces[0], called, None, None)
bus.call_sync("org.freedesktop.DBus", "/", "org.freedesktop.DBus", "RequestName", GLib.Variant("(su)", ("org.freedesktop.Notifications", 0)), None, 0, -1, None)
print("ready", flush=True)
GLib.MainLoop().run()
"""


def blocks():
    """The blocks of commands, with their documents, in order."""
    for document in DOCUMENTS:
        with open(os.path.join(TOP, document), encoding="utf-8") as file:
            parts = file.read().split("```")
        for part in parts[1::2]:
            text = part.strip("\n")
            if text.startswith(STARTS):
                yield document, text


def manual_blocks():
    """The proxy lines among the examples of the manual page, each in the background and then a list of the names that its proxy
    shows."""
    document = "docs/zamtigarn.1"
    with open(os.path.join(TOP, document), encoding="utf-8") as file:
        parts = file.read().split(".Sh EXAMPLES", 1)[1].split(".Bd ")[1:]
    for part in parts:
        text = part.split("\n", 1)[1].split("\n.Ed", 1)[0].replace("\\e", "\\")
        if text.startswith("zamtigarn "):
            yield document, "./" + text + LIST_NAMES


def clean():
    for name in FILES:
        try:
            os.remove(os.path.join("/tmp", name))
        except FileNotFoundError:
            pass


def run(document, text, environment, show):
    """Runs a block by bash. What it left running is ended."""
    process = subprocess.Popen(
        ["bash", "-e", "-o", "pipefail", "-c", text.replace(" &\n", " &\nsleep 0.3\n")],
        cwd=TOP, env=environment, stdin=subprocess.DEVNULL, stdout=subprocess.PIPE, stderr=subprocess.STDOUT, start_new_session=True,
    )
    try:
        status = process.wait(timeout=60)
    finally:
        time.sleep(0.3)
        try:
            os.killpg(process.pid, signal.SIGTERM)
        except ProcessLookupError:
            pass
    said = process.stdout.read().decode(errors="replace")
    good = status == 0 or (status == 7 and any(word in text for word in COMPARISONS))
    print("%s: %s: %s" % ("ok" if good else "FAILED with %d" % status, document, text.splitlines()[0]))
    if show or not good:
        print(said)
    return good


def main():
    show = "--show" in sys.argv[1:]
    clean()
    with tempfile.TemporaryDirectory() as folder:
        address = "unix:path=" + os.path.join(folder, "bus")
        bus = subprocess.Popen(["dbus-daemon", "--session", "--nofork", "--nosyslog", "--nopidfile", "--address=" + address], stderr=subprocess.DEVNULL)
        while not os.path.exists(os.path.join(folder, "bus")):
            time.sleep(0.01)
        service = subprocess.Popen(["/usr/bin/python3", "-c", SERVICE, address], stdout=subprocess.PIPE)
        service.stdout.readline()
        os.mkdir(os.path.join(folder, "app"))
        environment = dict(os.environ, DBUS_SESSION_BUS_ADDRESS=address, XDG_RUNTIME_DIR=folder)
        try:
            results = [run(document, text, environment, show) for document, text in [*blocks(), *manual_blocks()]]
        finally:
            for process in (service, bus):
                process.terminate()
                process.wait()
            clean()
    sys.exit(0 if all(results) else 1)


if __name__ == "__main__":
    main()
