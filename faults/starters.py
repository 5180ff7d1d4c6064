#!/usr/bin/env python3
"""Starts the built program as a sandbox's starter does, with words and descriptors of every kind and files of every kind at its
path, and looks at its status, its line, and what is left over. README.md says what is looked for."""
import argparse
import os
import signal
import socket
import stat
import subprocess
import sys
import tempfile
import time

HERE = os.path.dirname(os.path.abspath(__file__))
LISTEN = "error: listen\n"
REFUSED = "error: fd\n"
# One MiB above the limit of a file of words.
TOO_LONG = 17 << 20


class Wrong(Exception):
    pass


def check(held, what):
    if not held:
        raise Wrong(what)


class Case:
    """A folder of one's own, in which a bus's path is named that nothing listens at."""

    def __init__(self, program, folder):
        self.program, self.folder = program, folder
        self.bus, self.path = os.path.join(folder, "bus"), os.path.join(folder, "p")
        self.line = ["unix:path=" + self.bus, self.path, "--filter"]

    def start(self, words, descriptors=()):
        return subprocess.Popen(
            [self.program, *words], stdin=subprocess.DEVNULL, stdout=subprocess.PIPE, stderr=subprocess.PIPE, pass_fds=descriptors,
        )

    def ends(self, words, status, line, descriptors=()):
        """The program ends at once, with this status and this line alone."""
        process = self.start(words, descriptors)
        out, err = process.communicate(timeout=10)
        found = (process.returncode, err.decode(errors="replace"), out)
        check(found == (status, line, b""), "%s ended with %r" % (words, found))

    def served(self, words, descriptors=()):
        """The program, once its path can be connected to."""
        process = self.start(words, descriptors)
        for _ in range(1000):
            with socket.socket(socket.AF_UNIX) as client:
                try:
                    client.connect(self.path)
                    return process
                except OSError:
                    check(process.poll() is None, "%s ended with %s" % (words, process.returncode))
            time.sleep(0.01)
        process.kill()
        raise Wrong("%s listens at nothing" % words)

    def killed(self, process, number=signal.SIGTERM):
        process.send_signal(number)
        process.communicate(timeout=10)
        check(process.returncode == -number, "ended with %s" % process.returncode)


def kind(path):
    """What stands at a path: the kind of the file, and how many bytes it has."""
    try:
        found = os.lstat(path)
    except FileNotFoundError:
        return None
    return stat.S_IFMT(found.st_mode), found.st_size if stat.S_ISREG(found.st_mode) else 0


def stale_socket(path):
    with socket.socket(socket.AF_UNIX) as one:
        one.bind(path)


# ---- the starter's descriptor


def bad_numbers(case):
    for word in ("x", "", "03", "-1", "4294967296"):
        case.ends(["--fd=" + word, *case.line], 1, "error: word 0: BadNumber\n")
    case.ends([*case.line, "--fd=x"], 1, "error: word 3: BadNumber\n")


def descriptors_that_are_not_open(case):
    for number in ("9", "99999", "2147483647"):
        case.ends(["--fd=" + number, *case.line], 5, REFUSED)
        check(kind(case.path) is None, "a file was left")


def descriptor_of_a_file(case):
    with open(os.path.join(case.folder, "file"), "wb") as file:
        case.ends(["--fd=%d" % file.fileno(), *case.line], 5, REFUSED, [file.fileno()])
        check(file.tell() == 0 and os.fstat(file.fileno()).st_size == 0, "the file was written")


def descriptor_of_a_folder(case):
    folder = os.open(case.folder, os.O_RDONLY | os.O_DIRECTORY)
    case.ends(["--fd=%d" % folder, *case.line], 5, REFUSED, [folder])
    os.close(folder)


def descriptor_of_a_socket(case):
    one, other = socket.socketpair()
    case.ends(["--fd=%d" % one.fileno(), *case.line], 5, REFUSED, [one.fileno()])
    other.setblocking(False)
    one.close()
    check(other.recv(9) == b"", "the socket was written")


def descriptor_of_a_device(case):
    with open("/dev/null", "wb") as device:
        case.ends(["--fd=%d" % device.fileno(), *case.line], 5, REFUSED, [device.fileno()])


def a_fifo_that_nobody_reads(case):
    fifo = os.path.join(case.folder, "fifo")
    os.mkfifo(fifo)
    reader = os.open(fifo, os.O_RDONLY | os.O_NONBLOCK)
    writer = os.open(fifo, os.O_WRONLY)
    os.close(reader)
    case.ends(["--fd=%d" % writer, *case.line], 0, "", [writer])
    os.close(writer)
    check(kind(case.path) is None, "a socket was left")


def one_byte_once_all_paths_are_listened_at(case):
    reader, writer = os.pipe()
    other = os.path.join(case.folder, "q")
    process = case.start(["--fd=%d" % writer, *case.line, "unix:path=" + case.bus, other, "--filter"], [writer])
    os.close(writer)
    check(len(os.read(reader, 9)) == 1, "no byte came")
    for path in (case.path, other):
        with socket.socket(socket.AF_UNIX) as client:
            client.connect(path)
    os.set_blocking(reader, False)
    time.sleep(0.2)
    try:
        raise Wrong("%r came, too" % os.read(reader, 9))
    except BlockingIOError:
        pass
    os.close(reader)
    process.communicate(timeout=10)
    check(process.returncode == 0, "ended with %s" % process.returncode)
    check(kind(case.path) is None and kind(other) is None, "a socket was left")


def no_byte_where_a_path_is_not_listened_at(case):
    reader, writer = os.pipe()
    os.mkdir(case.path)
    case.ends(["--fd=%d" % writer, *case.line], 5, LISTEN, [writer])
    os.close(writer)
    check(os.read(reader, 9) == b"", "a byte came")
    os.close(reader)


def a_starter_that_is_gone_before(case):
    reader, writer = os.pipe()
    os.close(reader)
    case.ends(["--fd=%d" % writer, *case.line], 0, "", [writer])
    os.close(writer)
    check(kind(case.path) is None, "a socket was left")


def a_starter_that_goes_while_a_client_is_served(case):
    with socket.socket(socket.AF_UNIX) as bus:
        bus.bind(case.bus)
        bus.listen()
        reader, writer = os.pipe()
        process = case.start(["--fd=%d" % writer, *case.line], [writer])
        os.close(writer)
        os.read(reader, 1)
        with socket.socket(socket.AF_UNIX) as client:
            client.connect(case.path)
            client.sendall(b"\0AUTH EXTERNAL\r\n")
            link, _ = bus.accept()
            check(link.recv(99).startswith(b"\0AUTH"), "the bus got nothing")
            os.close(reader)
            process.communicate(timeout=10)
            check(process.returncode == 0, "ended with %s" % process.returncode)
            check(client.recv(9) == b"" and link.recv(9) == b"", "a link was left")
            link.close()
    check(kind(case.path) is None, "a socket was left")


def forty_starts(case):
    for _ in range(40):
        open(case.path, "wb").close()
        reader, writer = os.pipe()
        process = case.start(["--replace", "--fd=%d" % writer, *case.line], [writer])
        os.close(writer)
        check(len(os.read(reader, 9)) == 1, "no byte came")
        os.close(reader)
        process.communicate(timeout=10)
        check(process.returncode == 0 and kind(case.path) is None, "ended with %s" % process.returncode)


# ---- words in a descriptor


def args(case, data):
    """A descriptor of a file in memory that holds words."""
    number = os.memfd_create("words")
    with os.fdopen(os.dup(number), "wb") as file:
        file.write(data)
    os.lseek(number, 0, os.SEEK_SET)
    return number


def words_of_a_descriptor(case):
    reader, writer = os.pipe()
    number = args(case, b"\0".join(word.encode() for word in ["--fd=%d" % writer, *case.line]) + b"\0")
    process = case.start(["--args=%d" % number], [number, writer])
    os.close(writer)
    check(len(os.read(reader, 9)) == 1, "no byte came")
    os.close(reader)
    process.communicate(timeout=10)
    check(process.returncode == 0, "ended with %s" % process.returncode)
    os.close(number)


def words_of_a_pipe(case):
    reader, writer = os.pipe()
    os.write(writer, b"--colour\0")
    os.close(writer)
    case.ends(["--args=%d" % reader], 1, "error: word 0: OptionBeforeAddress\n", [reader])
    os.close(reader)


def words_that_are_not_there(case):
    case.ends(["--args=9"], 4, "error: file /dev/fd/9\n")
    case.ends(["--args=x"], 1, "error: word 0: BadNumber\n")


def too_many_words(case):
    number = args(case, b"a" * TOO_LONG)
    case.ends(["--args=%d" % number], 1, "error: args file too long\n", [number])
    os.close(number)


# ---- what stands at the path


def replaced(case, make):
    """What was made is replaced by a socket, which isn't left."""
    make(case.path)
    reader, writer = os.pipe()
    process = case.served(["--replace", "--fd=%d" % writer, *case.line], [writer])
    os.close(writer)
    check(kind(case.path) == (stat.S_IFSOCK, 0), "no socket stands there")
    os.close(reader)
    process.communicate(timeout=10)
    check(process.returncode == 0 and kind(case.path) is None, "a socket was left")


def empty_file_replaced(case):
    replaced(case, lambda path: open(path, "wb").close())


def stale_socket_replaced(case):
    replaced(case, stale_socket)


def left_alone(case, make, words=("--replace",)):
    """What was made stays, and isn't listened at."""
    make(case.path)
    before = kind(case.path)
    case.ends([*words, *case.line], 5, LISTEN)
    check(kind(case.path) == before, "it was changed")


def folder_left_alone(case):
    left_alone(case, os.mkdir)


def file_with_bytes_left_alone(case):
    def make(path):
        with open(path, "wb") as file:
            file.write(b"bytes")

    left_alone(case, make)


def link_to_a_socket_left_alone(case):
    def make(path):
        stale_socket(path + ".socket")
        os.symlink(path + ".socket", path)

    left_alone(case, make)
    check(kind(case.path + ".socket") == (stat.S_IFSOCK, 0), "the socket was removed")


def link_to_an_empty_file_left_alone(case):
    def make(path):
        open(path + ".file", "wb").close()
        os.symlink(path + ".file", path)

    left_alone(case, make)
    check(kind(case.path + ".file") == (stat.S_IFREG, 0), "the file was removed")


def fifo_left_alone(case):
    left_alone(case, os.mkfifo)


def empty_file_left_alone_unless_it_is_asked_for(case):
    left_alone(case, lambda path: open(path, "wb").close(), ())


def socket_left_alone_unless_it_is_asked_for(case):
    left_alone(case, stale_socket, ())


# ---- signals


def signals_end_the_process(case):
    for number in (signal.SIGTERM, signal.SIGINT, signal.SIGHUP):
        case.killed(case.served(case.line), number)
        check(kind(case.path) == (stat.S_IFSOCK, 0), "no socket is left")
        os.remove(case.path)


CASES = [
    bad_numbers, descriptors_that_are_not_open, descriptor_of_a_file, descriptor_of_a_folder, descriptor_of_a_socket,
    descriptor_of_a_device, a_fifo_that_nobody_reads, one_byte_once_all_paths_are_listened_at, no_byte_where_a_path_is_not_listened_at,
    a_starter_that_is_gone_before, a_starter_that_goes_while_a_client_is_served, forty_starts, words_of_a_descriptor,
    words_of_a_pipe, words_that_are_not_there, too_many_words, empty_file_replaced, stale_socket_replaced, folder_left_alone,
    file_with_bytes_left_alone, link_to_a_socket_left_alone, link_to_an_empty_file_left_alone, fifo_left_alone,
    empty_file_left_alone_unless_it_is_asked_for, socket_left_alone_unless_it_is_asked_for, signals_end_the_process,
]


def main():
    parser = argparse.ArgumentParser(description=__doc__)
    parser.add_argument("--program", default=os.path.join(HERE, "../crates/zamtigarn/out/zamtigarn"))
    program = os.path.abspath(parser.parse_args().program)
    wrong = 0
    for case in CASES:
        with tempfile.TemporaryDirectory() as folder:
            name = case.__name__.replace("_", " ")
            try:
                case(Case(program, folder))
                print("ok: " + name)
            except (Wrong, OSError, subprocess.TimeoutExpired) as error:
                wrong += 1
                print("WRONG: %s: %s" % (name, error))
    sys.exit(1 if wrong else 0)


if __name__ == "__main__":
    main()
