"""The other end of a link of the built program, for the scripts beside this one."""
import os
import select
import socket
import struct
import threading
import time

HOST = "127.0.0.1"
SECONDS = 40  # that one wait may take: the program itself gives a link 30


def packet(digits):
    """The packet of a body in hexadecimal digits."""
    body = bytes.fromhex(digits)
    return struct.pack("<I", len(body)) + body


def give(link, gives):
    """Sends these bytes, and ends this side of the link. The other end may have closed it."""
    try:
        link.sendall(gives)
        link.shutdown(socket.SHUT_WR)
    except OSError:
        pass


def exchange(link, gives):
    """Gives these bytes over a link, and answers all that came, until it ends or is reset."""
    got = b""
    with link:
        link.settimeout(SECONDS)
        sender = threading.Thread(target=give, args=(link, gives), daemon=True)
        sender.start()
        try:
            while piece := link.recv(65536):
                got += piece
        except OSError:
            pass
        sender.join(SECONDS)
    return got


def has_ended(process, deadline):
    """Whether a process has ended. How it ended, and the time that it took, can still be asked. After the deadline it is killed."""
    if time.monotonic() > deadline:
        process.kill()
    return os.waitid(os.P_PID, process.pid, os.WEXITED | os.WNOHANG | os.WNOWAIT) is not None


def over_link(start, gives):
    """Starts a program that makes a link: `start` is handed the address. The process, and what came over the link, if it made one."""
    with socket.create_server((HOST, 0)) as listener:
        process, deadline = start("%s:%d" % listener.getsockname()), time.monotonic() + SECONDS
        while True:
            ended = has_ended(process, deadline)
            if select.select([listener], [], [], 0 if ended else 0.01)[0]:
                return process, exchange(listener.accept()[0], gives)
            if ended:
                return process, b""


def free_port():
    with socket.socket() as probe:
        probe.bind((HOST, 0))
        return probe.getsockname()[1]


def called(start, all_given):
    """Starts a program that takes links: `start` is handed the address. The process, and what came over each link, while it takes them."""
    port, came = free_port(), []
    process, deadline = start(f"{HOST}:{port}"), time.monotonic() + SECONDS
    for gives in all_given:
        while not has_ended(process, deadline):
            try:
                link = socket.create_connection((HOST, port), timeout=SECONDS)
            except OSError:
                time.sleep(0.001)
                continue
            came.append(exchange(link, gives))
            break
    return process, came
