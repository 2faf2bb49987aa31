"""Processes of the tests: each is ended by its own number, also those that a process of the test has left behind."""

import ctypes
import os
import signal
import socket
import subprocess
import time

PR_SET_PDEATHSIG, PR_SET_CHILD_SUBREAPER = 1, 36
libc = ctypes.CDLL(None)


def adopt():
    """From now on a process whose parent has ended is a child of this one, and so none gets lost."""
    libc.prctl(PR_SET_CHILD_SUBREAPER, 1)


def start(words, log, **more):
    """A process that ends with this one at the latest."""
    with open(log, "wb") as file:
        dies = lambda: libc.prctl(PR_SET_PDEATHSIG, signal.SIGKILL)
        return subprocess.Popen(words, stdin=subprocess.DEVNULL, stdout=file, stderr=file, preexec_fn=dies, **more)


def below(number):
    """The processes below one."""
    found = []
    for thread in os.listdir(f"/proc/{number}/task") if os.path.isdir(f"/proc/{number}/task") else []:
        try:
            with open(f"/proc/{number}/task/{thread}/children", encoding="ascii") as file:
                children = [int(word) for word in file.read().split()]
        except OSError:
            continue
        found += [own for child in children for own in [child, *below(child)]]
    return found


def called(number):
    """The words with which a process calls itself."""
    try:
        with open(f"/proc/{number}/cmdline", "rb") as file:
            return file.read().replace(b"\0", b" ").decode("utf-8", "replace")
    except OSError:
        return ""


def kill(number):
    """Ends a process and all below it, at once and without a word, as a machine does that loses its power."""
    numbers = [number, *below(number)]
    for own in numbers:
        try:
            os.kill(own, signal.SIGKILL)
        except ProcessLookupError:
            pass


def end_all(seconds=10):
    """Ends all that is below this process; answers what would not end."""
    limit = time.monotonic() + seconds
    while below(os.getpid()) and time.monotonic() < limit:
        for own in below(os.getpid()):
            try:
                os.kill(own, signal.SIGTERM if time.monotonic() < limit - seconds / 2 else signal.SIGKILL)
            except ProcessLookupError:
                pass
        time.sleep(0.1)
        reap()
    return below(os.getpid())


def reap():
    """Takes note of the children that have ended."""
    try:
        while os.waitpid(-1, os.WNOHANG)[0]:
            pass
    except ChildProcessError:
        pass


def wait_for(what, seconds):
    """Waits until something holds; answers what it is then."""
    limit = time.monotonic() + seconds
    while not (found := what()) and time.monotonic() < limit:
        time.sleep(0.1)
    return found


def free_ports(count):
    """Ports of this machine that nobody uses."""
    sockets = [socket.socket() for _ in range(count)]
    for own in sockets:
        own.bind(("127.0.0.1", 0))
    ports = [own.getsockname()[1] for own in sockets]
    for own in sockets:
        own.close()
    return ports


def open_addresses():
    """The addresses on which the processes below this one are listening."""
    inodes = set()
    for number in below(os.getpid()):
        try:
            links = [os.readlink(f"/proc/{number}/fd/{fd}") for fd in os.listdir(f"/proc/{number}/fd")]
        except OSError:
            continue
        inodes |= {link[len("socket:["):-1] for link in links if link.startswith("socket:[")}
    found = set()
    for table, loopback in (("tcp", "0100007F"), ("tcp6", "0" * 24 + "01000000")):
        with open(f"/proc/net/{table}", encoding="ascii") as file:
            rows = [line.split() for line in file.readlines()[1:]]
        for row in rows:
            address = row[1].partition(":")[0]
            if row[3] == "0A" and row[9] in inodes:
                found.add("loopback" if address == loopback else address)
    return found
