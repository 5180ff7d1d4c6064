"""Two sessions as an application and its bus have them, as bytes."""
import struct

BUS = "org.freedesktop.DBus"
CALL, RETURN, SIGNAL = 1, 2, 4
CLIENT, SERVER = "client", "bus"

PORTAL = "org.freedesktop.portal.Desktop"
DESKTOP = "/org/freedesktop/portal/desktop"
REQUEST = DESKTOP + "/request/1_40/t"
PORTAL_WORDS = ["--filter", "--call=org.freedesktop.portal.*=*", "--broadcast=org.freedesktop.portal.*=@/org/freedesktop/portal/*"]


def padded(data, width):
    return data + bytes(-len(data) % width)


def text(value):
    return struct.pack("<I", len(value)) + value.encode() + b"\0"


def texts(*values):
    """The body of strings and object paths, one after the other."""
    body = b""
    for value in values:
        body = padded(body, 4) + text(value)
    return body


def text_list(values):
    body = texts(*values)
    return struct.pack("<I", len(body)) + body


def message(kind, serial, fields, signature="", body=b""):
    """A message in little order (D-Bus Specification, "Message Format"). Fields are (code, type, value), in any order."""
    fields = sorted(fields + ([(8, "g", signature)] if signature else []))
    spelled = b""
    for code, kind_of_value, value in fields:
        spelled = padded(spelled, 8) + bytes([code, 1]) + kind_of_value.encode() + b"\0"
        if kind_of_value == "u":
            spelled += struct.pack("<I", value)
        elif kind_of_value == "g":
            spelled += bytes([len(value)]) + value.encode() + b"\0"
        else:
            spelled += text(value)
    head = b"l" + bytes([kind, 0, 1]) + struct.pack("<II", len(body), serial) + struct.pack("<I", len(spelled))
    return padded(head + spelled, 8) + body


def call(serial, destination, path, interface, member, signature="", body=b""):
    return message(CALL, serial, [(1, "o", path), (2, "s", interface), (3, "s", member), (6, "s", destination)], signature, body)


def bus_call(serial, member, *arguments):
    return call(serial, BUS, "/org/freedesktop/DBus", BUS, member, "s" * len(arguments), texts(*arguments))


def answer(serial, to, sender, signature="", body=b""):
    return message(RETURN, serial, [(5, "u", to), (6, "s", ":1.40"), (7, "s", sender)], signature, body)


def signal(serial, sender, destination, path, interface, member, signature="", body=b""):
    fields = [(1, "o", path), (2, "s", interface), (3, "s", member), (7, "s", sender)]
    return message(SIGNAL, serial, fields + ([(6, "s", destination)] if destination else []), signature, body)



def with_no_options(body):
    """With an empty dictionary of type a{sv} behind the body, and the padding of its first entry."""
    return padded(padded(body, 4) + bytes(4), 8)


# What either side sends, in order, each when what the pieces before it bring has come. Each brings something.
PORTAL_SESSION = [
    (CLIENT, b"\0AUTH EXTERNAL\r\nDATA\r\nNEGOTIATE_UNIX_FD\r\nBEGIN\r\n"),
    (SERVER, b"DATA\r\nOK 0123456789abcdef0123456789abcdef\r\nERROR\r\n"),
    (CLIENT, bus_call(1, "Hello")),
    (SERVER, answer(1, 1, BUS, "s", texts(":1.40"))),
    (SERVER, answer(3, 2, BUS) + answer(4, 3, BUS, "as", text_list([BUS, ":1.40", PORTAL, "org.kde.Secret", ":1.9"]))),
    (SERVER, answer(5, 4, BUS, "s", texts(":1.9")) + signal(2, BUS, ":1.40", "/org/freedesktop/DBus", BUS, "NameAcquired", "s", texts(":1.40"))),
    (CLIENT, bus_call(2, "AddMatch", "type='signal',sender='org.freedesktop.portal.Desktop'")),
    (SERVER, answer(6, 5, BUS)),
    (CLIENT, call(3, PORTAL, DESKTOP, "org.freedesktop.portal.FileChooser", "OpenFile", "ssa{sv}", with_no_options(texts("", "Open")))),
    (SERVER, answer(20, 6, ":1.9", "o", texts(REQUEST))),
    (SERVER, signal(21, ":1.9", ":1.40", REQUEST, "org.freedesktop.portal.Request", "Response", "ua{sv}", with_no_options(bytes(4)))),
    (SERVER, signal(22, ":1.9", None, DESKTOP, "org.freedesktop.DBus.Properties", "PropertiesChanged", "sa{sv}as",
                    with_no_options(texts("org.freedesktop.portal.Settings")) + bytes(4))),
    # A call to a name that the client doesn't see, and the answer to the ping in its place.
    (CLIENT, call(4, "org.kde.Secret", "/x", "org.kde.Secret", "Open")),
    (SERVER, answer(23, 7, BUS)),
]


def recording(pieces, end=CLIENT):
    """A recording of the pieces and then the end of one side."""
    kinds = {CLIENT: 0, SERVER: 1}
    records = [bytes([kinds[side]]) + struct.pack("<I", len(data)) + data for side, data in pieces]
    return b"DBPR\1\1" + b"".join(records) + bytes([2 + kinds[end]]) + bytes(4)
