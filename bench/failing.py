#!/usr/bin/env python3
"""A run of a program whose reads are short or fail, or whose writes do.

    bench/failing.py HOW FOLDER PROGRAM WORDS..

The script is the file `script` of the folder. Answers go to its file `out-found`, and what is told of faults to `err-found`. HOW is some of
these words, with commas between them:

    reads=N   a read gives N bytes of the script at most
    read      behind the script a read fails, in the place of its end
    again     behind the end of the script there is another statement, for who reads again
    room=N    the answers have room for N bytes; a write of more fails
    short     of an answer that is longer than a page, a write takes a part
    told      whatever is told of a fault fails
    apart     of what is told of faults, `|` stands behind each write

The status is that of the program."""
import fcntl
import os
import resource
import signal
import socket
import subprocess
import sys
import time

PAGE = 4096


def ends(how):
    """The end from which the program reads, and ours."""
    if "read" in how:
        theirs, ours = socket.socketpair()
        theirs.send(b"-")  # It stays unread: where such an end is closed, reads of the other fail behind what was sent.
    elif "again" in how:
        theirs, ours = socket.socketpair(type=socket.SOCK_DGRAM)  # Of messages, a read gives one, which may be empty.
    else:
        return os.pipe2(os.O_DIRECT) if "reads" in how else os.pipe()  # Of packets, a read gives one.
    return theirs.detach(), ours.detach()


def send(ours, script, how):
    """Sends the script, and what is behind its end, to a program that may end before."""
    size = int(how.get("reads", PAGE if "again" in how else len(script) + 1))
    try:
        with open(ours, "wb", buffering=0) as end:
            for at in range(0, len(script), size):
                part = script[at:at + size]
                while part:
                    part = part[end.write(part):]
            if "again" in how:
                os.write(ours, b"")
                os.write(ours, b"{ };")
    except OSError:
        pass


def halt(run):
    """Stops a program, which goes on at once: where it waits for room, its write ends with what was taken."""
    run.send_signal(signal.SIGSTOP)
    try:
        os.waitid(os.P_PID, run.pid, os.WSTOPPED | os.WEXITED | os.WNOWAIT)
    except ChildProcessError:
        pass
    run.send_signal(signal.SIGCONT)


def receive(run, ours, out):
    """Takes the answers, a page at once."""
    while True:
        time.sleep(0.01)
        halt(run)
        part = os.read(ours, PAGE)
        if not part:
            return
        out.write(part)


def told(how):
    """The end on which the program tells of faults, and ours, where there is one."""
    if "told" in how:
        return os.open("/dev/full", os.O_WRONLY), None
    ours, theirs = os.pipe2(os.O_DIRECT if "apart" in how else 0)
    return theirs, ours


def lines(ours, mark):
    """What was told, with the mark behind each write."""
    found = b""
    while part := os.read(ours, 16 * PAGE):
        found += part + mark
    return found


def main():
    how = dict(word.partition("=")[::2] for word in sys.argv[1].split(","))
    folder, command = sys.argv[2], sys.argv[3:]
    room = int(how.get("room", resource.RLIM_INFINITY))

    def begin():
        signal.signal(signal.SIGXFSZ, signal.SIG_IGN)
        resource.setrlimit(resource.RLIMIT_FSIZE, (room, room))

    theirs, ours = ends(how)
    err, faults = told(how)
    with open(f"{folder}/script", "rb") as file:
        script = file.read()
    with open(f"{folder}/out-found", "wb") as out:
        answers, own = os.pipe() if "short" in how else (None, out.fileno())
        if answers is not None:
            fcntl.fcntl(own, 1031, PAGE)  # F_SETPIPE_SZ
        run = subprocess.Popen(command, stdin=theirs, stdout=own, stderr=err, preexec_fn=begin)
        for end in (theirs, err) + (() if answers is None else (own,)):
            os.close(end)
        send(ours, script, how)
        if answers is not None:
            receive(run, answers, out)
        found = b"" if faults is None else lines(faults, b"|" if "apart" in how else b"")
        run.wait()
    with open(f"{folder}/err-found", "wb") as file:
        file.write(found)
    return run.returncode


if __name__ == "__main__":
    sys.exit(main())
