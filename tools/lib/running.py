"""Runs the program for the other scripts here: its place, free ports, and what a run takes."""
import argparse
import os
import random
import re
import resource
import signal
import socket
import subprocess
import sys
import tempfile
import time

# The checkout.
TOP = os.path.dirname(os.path.dirname(os.path.dirname(os.path.abspath(__file__))))
PROGRAM = f"{TOP}/crates/chukwa/out/chukwa"
MIB = 1 << 20
MOMENT = re.compile(r"\d{4}-\d\d-\d\dT\d\d:\d\d:\d\dZ chukwa: ")


def parser_of(doc):
    """A parser whose help is the text at a script's head."""
    what, _, more = doc.split("\n\n", 2)
    shown = argparse.RawDescriptionHelpFormatter
    return argparse.ArgumentParser(description=what, epilog=more.strip(), formatter_class=shown)


def add_program(parser):
    """The option that names the program."""
    parser.add_argument("--program", default=PROGRAM, help="the program (default: the checkout's)")


def program_of(asked):
    """The place of the program that is tried."""
    if not os.path.isfile(asked.program):
        sys.exit(f"there is no program {asked.program}; bin/build makes it")
    return os.path.abspath(asked.program)


def load():
    return "load " + " ".join(f"{each:.1f}" for each in os.getloadavg())


def free_ports(count):
    """Ports of 127.0.0.1 that nothing has, below those that systems give to connections."""
    found = []
    while len(found) < count:
        port = random.SystemRandom().randrange(10_000, 32_000)
        with socket.socket() as tried:
            tried.setsockopt(socket.SOL_SOCKET, socket.SO_REUSEADDR, 1)
            try:
                tried.bind(("127.0.0.1", port))
            except OSError:
                continue
        if port not in found:
            found.append(port)
    return found


def listening(port):
    """Whether a socket of this machine listens at the port; nothing is sent to it."""
    local = f"0100007F:{port:04X}"
    with open("/proc/net/tcp", encoding="ascii") as table:
        return any(row.split()[1] == local and row.split()[3] == "0A" for row in table.readlines()[1:])


def taking(port):
    """Whether a socket of this machine takes datagrams at the port; nothing is sent to it."""
    local = f"0100007F:{port:04X}"
    with open("/proc/net/udp", encoding="ascii") as table:
        return any(row.split()[1] == local for row in table.readlines()[1:])


def asked_at(port, lines):
    """What an agent answers to a control message at its door."""
    said = b""
    try:
        with socket.create_connection(("127.0.0.1", port), timeout=20) as door:
            door.sendall(lines.encode())
            door.shutdown(socket.SHUT_WR)
            while piece := door.recv(65_536):
                said += piece
    except OSError as why:
        return f"{said.decode()}{why}"
    return said.decode()


class Process:
    """One run of the program that goes on beside the script. It is a group of its own, also below a
    tracer, and is ended by the group's id."""

    def __init__(self, name, words, folder):
        self.name, self.words, self.folder = name, words, folder
        self.out, self.told = tempfile.TemporaryFile(), tempfile.TemporaryFile()
        self.child = subprocess.Popen(
            words, cwd=folder, stdin=subprocess.DEVNULL, stdout=self.out, stderr=self.told, start_new_session=True
        )

    def status(self):
        """Its status, none while it runs."""
        return self.child.poll()

    def wait(self, seconds):
        """Its status; one that takes longer is killed, and has none."""
        try:
            return self.child.wait(seconds)
        except subprocess.TimeoutExpired:
            self.kill()
            return None

    def kill(self):
        if self.child.poll() is None:
            os.killpg(self.child.pid, signal.SIGKILL)
            self.child.wait()

    def printed(self):
        return text(self.out)

    def error(self):
        """What it wrote on standard error, but for what it told when it happened."""
        return parted(text(self.told))[0]

    def notices(self):
        """The lines that it told when something happened, each with its moment."""
        return parted(text(self.told))[1]

    def close(self):
        if self.status() is None:
            self.kill()
        self.out.close()
        self.told.close()


def parted(error):
    """The lines of a standard error that begin with no moment, as one text, and those that do."""
    lines = error.splitlines(keepends=True)
    timed = [line for line in lines if MOMENT.match(line)]
    return "".join(line for line in lines if not MOMENT.match(line)), [line.rstrip("\n") for line in timed]


def text(file):
    file.seek(0)
    return file.read().decode(errors="replace")


def ran(words, folder, seconds=120):
    """The status, standard output and standard error of a run that ends by itself."""
    process = Process(words[1] if len(words) > 1 else "", words, folder)
    try:
        return process.wait(seconds), process.printed(), process.error()
    finally:
        process.close()


def resident(child):
    """The peak of its resident memory so far, in KiB."""
    try:
        with open(f"/proc/{child.pid}/status", encoding="ascii") as status:
            for line in status:
                if line.startswith("VmHWM:"):
                    return int(line.split()[1])
    except OSError:
        pass
    return 0


class Used:
    """What a process took: seconds, processor seconds and the peak of its memory in KiB."""

    def __init__(self, words, folder, output=subprocess.DEVNULL):
        self.began = time.monotonic()
        self.seconds = self.processor = self.peak = 0
        self.status = None
        self.child = subprocess.Popen(words, cwd=folder, stdin=subprocess.DEVNULL, stdout=output)

    def look(self):
        """Whether it has ended. What wait4 tells of memory counts where it's above this script's own."""
        self.peak = max(self.peak, resident(self.child))
        ended, status, usage = os.wait4(self.child.pid, os.WNOHANG)
        if not ended:
            return False
        self.seconds = time.monotonic() - self.began
        self.processor = usage.ru_utime + usage.ru_stime
        if usage.ru_maxrss > resource.getrusage(resource.RUSAGE_SELF).ru_maxrss:
            self.peak = usage.ru_maxrss
        self.status = self.child.returncode = os.waitstatus_to_exitcode(status)
        return True

    def wait(self, seconds=600):
        while not self.look():
            if time.monotonic() - self.began > seconds:
                self.child.kill()
                self.child.wait()
                raise TimeoutError(self.child.args)
            time.sleep(0.005)
        return self

    def end(self):
        """Kills it, and tells what it took until then."""
        self.peak = max(self.peak, resident(self.child))
        self.child.kill()
        while not self.look():
            time.sleep(0.005)
        return self


def row(what, size, used):
    """A line of figures."""
    speed = size / used.seconds / 1e6
    return (
        f"{what}: {speed:.1f} MB/s, {used.seconds:.2f} s, "
        f"processor {used.processor:.2f} s, peak {used.peak} KiB"
    )
