#!/usr/bin/env python3
"""The other end of a command's standard input or output: it is gone, or slow while the command's own end is not waited for (O_NONBLOCK).

    ends.py no-reader signal|ignored COMMAND...    nobody reads the command's output, already when it starts; the signal for that ends whoever
                                                   writes, or is ignored
    ends.py late-reader pipe|socket COMMAND...     the command's output goes to a small pipe or a socket that is full when it starts; it is read
                                                   late and in small pieces, and all that came is printed
    ends.py late-writer FILE COMMAND...            the command's input is a pipe that is empty when it starts; it gets the file's bytes late and in pieces
    ends.py in-turns FILE COMMAND...               each line of FILE, hexadecimal, is written only when the answer to the one before has come: lines up
                                                   to an empty one; all that came is printed. With --bytes before COMMAND the line's bytes are written

It ends with the command's exit status.
"""

import fcntl
import os
import select
import socket
import subprocess
import sys
import time

# Long enough for the command to come to its first read or write also on a busy machine.
LATE = 2
# Linux's number for it; Python has a name for it only from 3.10 on.
F_SETPIPE_SZ = 1031
PATIENCE = 60


def filled(kind):
    """An end to write to that is full, the one to read from, and how many bytes stand in between."""
    if kind == "pipe":
        reader, writer = os.pipe()
        fcntl.fcntl(writer, F_SETPIPE_SZ, 4096)
    else:
        reader, writer = (end.detach() for end in socket.socketpair())
    os.set_blocking(writer, False)
    count = 0
    try:
        while True:
            count += os.write(writer, b"." * 256)
    except BlockingIOError:
        pass
    return reader, writer, count


def no_reader(kind, command):
    reader, writer = os.pipe()
    os.close(reader)
    # Python itself ignores the signal; what it starts would have it back.
    process = subprocess.Popen(command, stdout=writer, restore_signals=kind == "signal")
    os.close(writer)
    return process.wait()


def late_reader(kind, command):
    reader, writer, before = filled(kind)
    process = subprocess.Popen(command, stdout=writer)
    os.close(writer)
    time.sleep(LATE)
    found = bytearray()
    while True:
        piece = os.read(reader, 512)
        if not piece:
            break
        found += piece
        time.sleep(0.0005)
    sys.stdout.buffer.write(found[before:])
    return process.wait()


def late_writer(name, command):
    with open(name, "rb") as file:
        given = file.read()
    reader, writer = os.pipe()
    os.set_blocking(reader, False)
    process = subprocess.Popen(command, stdin=reader)
    os.close(reader)
    step = max(1, len(given) // 3)
    for start in range(0, len(given), step):
        time.sleep(LATE / 4)
        os.write(writer, given[start:start + step])
    os.close(writer)
    return process.wait()


def in_turns(name, command):
    as_bytes = command[0] == "--bytes"
    process = subprocess.Popen(command[as_bytes:], stdin=subprocess.PIPE, stdout=subprocess.PIPE)
    with open(name) as file:
        for line in file:
            process.stdin.write(bytes.fromhex(line) if as_bytes else line.rstrip("\n").encode())
            process.stdin.flush()
            answer = b""
            while not answer.endswith(b"\n\n"):
                if not select.select([process.stdout], [], [], PATIENCE)[0]:
                    process.kill()
                    print("no answer to %r within %d s" % (line, PATIENCE))
                    return 1
                piece = os.read(process.stdout.fileno(), 65536)
                if not piece:
                    print("the output ended before the answer to %r" % line)
                    return 1
                answer += piece
            print(answer.decode(), end="")
    process.stdin.close()
    print(process.stdout.read().decode(), end="")
    return process.wait()


def main(arguments):
    ways = {"no-reader": no_reader, "late-reader": late_reader, "late-writer": late_writer, "in-turns": in_turns}
    if len(arguments) < 3 or arguments[0] not in ways:
        sys.exit(__doc__)
    return ways[arguments[0]](arguments[1], arguments[2:])


if __name__ == "__main__":
    sys.exit(main(sys.argv[1:]))
