"""Ports, servers, viewers and connections, beside runs of the program."""

import contextlib
import os
import random
import shutil
import signal
import socket
import struct
import subprocess
import tempfile
import threading
import time

from calls import Call, Run, ends
from messages import SERVER
from pictures import SHOWN

# Another address of this machine: all that begin with 127 are.
OTHER = "127.%d.%d.%d" % tuple(random.randrange(1, 255) for _ in range(3))


def free_port(host="127.0.0.1"):
    """A port on which nothing listens, below those that the system gives to connections."""
    while True:
        port = random.randrange(20000, 30000)
        with socket.socket() as taken, contextlib.suppress(OSError):
            taken.bind((host, port))
            return port


def is_listening(port):
    """Whether a socket of this machine listens at the port. No connection is made."""
    for name in "/proc/net/tcp", "/proc/net/tcp6":
        with contextlib.suppress(FileNotFoundError), open(name) as lines:
            for words in map(str.split, list(lines)[1:]):
                if words[3] == "0A" and int(words[1].rsplit(":", 1)[1], 16) == port:
                    return True
    return False


def waits_for(port):
    """Waits until something listens at a port, ten seconds at most."""
    for _ in range(500):
        if is_listening(port):
            return
        time.sleep(0.02)


def connected(port, host="127.0.0.1"):
    """A connection to a server, which may not listen yet."""
    for _ in range(1000):
        try:
            return socket.create_connection((host, port), 20)
        except ConnectionRefusedError:
            time.sleep(0.01)
    raise AssertionError(f"nothing listens on {host}, port {port}")


class Server:
    """Listens on an address, sends the bytes to whom comes first, after a pause, and ends writing or
    is silent."""

    def __init__(self, sent=SERVER, host="127.0.0.1", port=0, late=0, is_silent=False, pause=0):
        self.came = b""
        self.listener = socket.socket()
        self.listener.setsockopt(socket.SOL_SOCKET, socket.SO_REUSEADDR, 1)
        self.listener.bind((host, port))
        self.port = self.listener.getsockname()[1]
        self.listener.settimeout(20)
        if not late:
            self.listener.listen()
        self.thread = threading.Thread(target=self.serve, args=(sent, late, is_silent, pause),
                                       daemon=True)
        self.thread.start()

    def serve(self, sent, late, is_silent, pause):
        if late:
            time.sleep(late)
            self.listener.listen()
        try:
            with self.listener, self.listener.accept()[0] as line:
                line.settimeout(20)
                time.sleep(pause)
                line.sendall(sent)
                if not is_silent:
                    line.shutdown(socket.SHUT_WR)
                self.came = b"".join(iter(lambda: line.recv(65536), b""))
        except OSError:
            # Nobody has come, or who came has gone without a word.
            pass

    def shows(self, words, status=0, output=SHOWN, errors=b""):
        """Views it with these words, and returns what the viewer sent."""
        ends(["view", *words], b"", status, output, errors)
        self.thread.join(20)
        return self.came


class View:
    """A row that is a view of what `serve` shows, in a run that begins first and must tell this.
    PORT in words is a port that is free then, and PICTURE the path of a picture."""

    def __init__(self, name, words, output, served, told=b"ok 1\n", errors=b"", status=0,
                 device=None, picture=None):
        self.__name__ = name
        self.served, self.told, self.picture = served.split(), told, picture
        self.view = Call(name, words.split(), b"", status, output, errors, device)

    def __call__(self):
        with tempfile.TemporaryDirectory() as room:
            port, path = free_port(), os.path.join(room, "picture")
            if self.picture is not None:
                with open(path, "wb") as file:
                    file.write(self.picture)
            run = Run([word.replace("PICTURE", path).replace("PORT", str(port))
                       for word in self.served])
            waits_for(port)
            self.view([word.replace("PORT", str(port)) for word in self.view.words])
            run.ends(0, self.told, b"")


@contextlib.contextmanager
def viewing(*words, output=None):
    """A view of a server that has come to it, and the server's end."""
    with socket.create_server(("127.0.0.1", 0)) as listener:
        listener.settimeout(20)
        run = Run(["view", "--explain", f"--port={listener.getsockname()[1]}", *words],
                  output=output)
        with listener.accept()[0] as line:
            yield run, line


# A host with two addresses, of which nothing listens at the first.
TWO_ADDRESSES = r"""
#define _GNU_SOURCE
#include <dlfcn.h>
#include <netdb.h>
typedef int look(const char *, const char *, const struct addrinfo *, struct addrinfo **);
int getaddrinfo(const char *name, const char *port, const struct addrinfo *wanted,
                struct addrinfo **found) {
    look *next = (look *)dlsym(RTLD_NEXT, "getaddrinfo");
    struct addrinfo *last;
    int failed = next("FIRST", port, wanted, found);
    if (failed) return failed;
    for (last = *found; last->ai_next; last = last->ai_next);
    return next("127.0.0.1", port, wanted, &last->ai_next);
}
"""


@contextlib.contextmanager
def two_addresses():
    """A library with which each host has two addresses, or None where there is no C compiler."""
    if not shutil.which("cc"):
        yield None
        return
    with tempfile.TemporaryDirectory() as room:
        source, made = os.path.join(room, "two.c"), os.path.join(room, "two.so")
        with open(source, "w") as file:
            file.write(TWO_ADDRESSES.replace("FIRST", OTHER))
        subprocess.run(["cc", "-shared", "-fPIC", "-o", made, source, "-ldl"], check=True)
        yield made


def halts(run):
    """Stops a run, until it gets SIGCONT."""
    run.run.send_signal(signal.SIGSTOP)
    os.waitid(os.P_PID, run.run.pid, os.WSTOPPED | os.WNOWAIT)


def breaks(line):
    """Ends a connection by a reset, which loses what is on its way."""
    line.setsockopt(socket.SOL_SOCKET, socket.SO_LINGER, struct.pack("ii", 1, 0))
    line.close()


def takes(line, count):
    """The next bytes that come, of that number."""
    line.settimeout(20)
    taken = bytearray()
    while len(taken) < count:
        part = line.recv(min(count - len(taken), 1 << 20))
        assert part, (count, bytes(taken[-40:]))
        taken += part
    return bytes(taken)


def visits(port, sent, does=lambda line: None):
    """Sends this to a server, and tells by which name it is known there, and how long it lasts."""
    with connected(port) as line:
        name = "rfb: 127.0.0.1:%d" % line.getsockname()[1]
        begun = time.time()
        line.sendall(sent)
        does(line)
        with contextlib.suppress(OSError):
            while line.recv(4096):
                pass
    return name, time.time() - begun
