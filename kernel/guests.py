"""Guests: a script for each, what its kernel and its commands answered, and what failed."""

import collections
import concurrent.futures
import errno
import os
import shutil
import signal
import subprocess
import sys
import time

import kernels

HERE = os.path.dirname(os.path.abspath(__file__))
TOP = os.path.dirname(HERE)
OUT = f"{HERE}/out"
SILENCE = 900  # seconds in which a guest writes nothing, before it is stopped; a busy machine stops it for minutes
BOOT = 180  # seconds in which it has begun to write

failures = []


def fail(text):
    failures.append(text)
    print(f"FAILED {text}", flush=True)


def lacks(sentence):
    print(sentence)
    sys.exit(3)


def error_name(number):
    return "EOPNOTSUPP" if number == errno.EOPNOTSUPP else errno.errorcode.get(number, str(number))


def compile_guest():
    """Compiles the guest's first process, and the calls of its kernel."""
    compiler = shutil.which("gcc")
    if not compiler:
        lacks("The package gcc is not installed, which compiles the guest.")
    os.makedirs(OUT, exist_ok=True)
    flags, own = ["-O2", "-Wall", "-Wextra"], str(os.getpid())
    if subprocess.run([compiler, *flags, "-static", "-o", f"{OUT}/guest.{own}", f"{HERE}/guest.c"]).returncode:
        lacks("guest.c was not compiled: it takes the packages gcc, libc6-dev and linux-libc-dev.")
    with open("/proc/cpuinfo") as file:
        flags += ["-DAMX"] if "amx_tile" in file.read().split() else []
    subprocess.run([compiler, *flags, "-shared", "-fPIC", "-o", f"{OUT}/traced.so.{own}", f"{HERE}/traced.c"], check=True)
    for it in ("guest", "traced.so"):  # another run may have them open
        os.replace(f"{OUT}/{it}.{own}", f"{OUT}/{it}")


def environment():
    """The environment of a kernel that is a process: its calls are those of traced.c. Its memory is a file, which is in memory where there is room for such files."""
    folder = "/dev/shm" if os.access("/dev/shm", os.W_OK) and not os.statvfs("/dev/shm").f_flag & os.ST_NOEXEC else OUT
    return {**os.environ, "TMPDIR": folder, "LD_PRELOAD": f"{OUT}/traced.so"}


def choose(name, with_kvm=True):
    """Guests have this kernel from here on: `uml`, or a version of Debian's, such as `6.12`."""
    try:
        CHOSEN[:] = [kernels.uml() if name == "uml" else kernels.debian(name, f"{OUT}/guest", with_kvm)]
    except kernels.Lacking as it:
        lacks(str(it))
    return CHOSEN[0]


CHOSEN = []


def chosen():
    """The kernel that guests have."""
    return CHOSEN[0] if CHOSEN else choose("uml")


def place():
    """Where guests with this kernel have their folders: those of different kernels may run at a time."""
    return OUT if chosen().is_uml else f"{OUT}/{chosen().name}"


def booting(folder):
    """The words that boot a guest with this folder."""
    kernel = chosen()
    own = [f"DIR={folder}", f"OUT={OUT}", f"MODULES={kernel.modules}", f"SLOWNESS={kernel.slowness}", "quiet"]
    own += [f"IPROUTE2={kernel.iproute2}"] if kernel.iproute2 else []
    if kernel.is_uml:
        return [*kernel.words, "mem=256M", "rootfstype=hostfs", "rw", "con=null", "con0=fd:0,fd:1", f"uml_dir={folder}/", "umid=guest", f"init={OUT}/guest", *own]
    return [*kernel.words, "-append", " ".join(["console=ttyS0", "panic=-1", "no_timer_check", *own])]


# How a request ended, and the (type, bytes) that came back before that; `offset` is None if the kernel names no
# attribute.
Answer = collections.namedtuple("Answer", "got error offset sentence")

# How a command ended, and the lines that it wrote.
Said = collections.namedtuple("Said", "status lines")


class Guest:
    """A script for the guest, each different try in it once, and the answers by the numbers of the tries."""

    def __init__(self, name):
        self.folder, self.tries, self.answers, self.kernel = f"{place()}/{name}", {}, {}, ""
        shutil.rmtree(self.folder, ignore_errors=True)
        os.makedirs(self.folder)

    def add(self, links, requests):
        """Adds a try of requests, and of commands where they are texts, and returns its number."""
        lines = [f"link {it}" for it in dict.fromkeys(links)]
        for it in requests:
            lines.append(f"run {it}" if isinstance(it, str) else f"send {it[0]} {it[1]} {it[2].hex()}")
        return self.add_lines(lines)

    def add_lines(self, lines):
        """Adds a try of lines as the script has them."""
        return self.tries.setdefault("\n".join(lines), len(self.tries))

    def run(self, silence=SILENCE):
        with open(f"{self.folder}/script", "w") as file:
            file.writelines(f"try {number}\n{text}\n" for text, number in self.tries.items())
        began = time.monotonic()
        with open(f"{self.folder}/console", "w") as console:
            how = {"stdin": subprocess.DEVNULL, "stdout": console, "stderr": console, "start_new_session": True}
            guest = subprocess.Popen(booting(self.folder), env=environment() if chosen().is_uml else None, **how)
            try:
                self.wait(guest, silence * chosen().slowness)
            finally:
                try:
                    os.killpg(guest.pid, signal.SIGKILL)
                except ProcessLookupError:
                    pass
        self.read()
        print(f"Linux {self.kernel}: {len(self.tries)} tries in {time.monotonic() - began:.0f} s", flush=True)

    def wait(self, guest, silence):
        """Waits until the guest ends, as long as it writes answers."""
        size, since = -1, time.monotonic()
        while guest.poll() is None:
            time.sleep(0.2)
            path = f"{self.folder}/answers"
            now = os.path.getsize(path) if os.path.exists(path) else 0
            if now != size:
                size, since = now, time.monotonic()
            elif time.monotonic() - since > (limit := silence if size else BOOT * chosen().slowness):
                return fail(f"the guest in {self.folder} wrote nothing for {limit} seconds; see the file console there")

    def read(self):
        number, got, said, lines = None, [], [], []
        if os.path.exists(f"{self.folder}/answers"):
            with open(f"{self.folder}/answers", errors="replace") as file:
                lines = file.read().splitlines()
        for line in lines:
            word, _, rest = line.partition(" ")
            if word == "kernel":
                self.kernel = rest
            elif word == "try":
                number, got, said = int(rest), [], []
                self.answers[number] = []
            elif word == "got":
                type_, _, data = rest.partition(" ")
                got.append((int(type_), bytes.fromhex(data)))
            elif word == "ack":
                error, offset, sentence = rest.split(" ", 2)
                offset = None if offset == "-" else int(offset)
                self.answers[number].append(Answer(tuple(got), int(error), offset, sentence))
                got = []
            elif word == "end":
                self.answers[number].append(Answer(tuple(got), int(rest), None, ""))
                got = []
            elif word == "said":
                said.append(rest)
            elif word == "status":
                self.answers[number].append(Said(int(rest), said))
                said = []
            elif word == "died":
                fail(f"try {number} of {self.folder}/script: its process ended with {rest}")
        if lines[-1:] != ["finished"]:
            fail(f"the guest wrote nothing past try {number} of {self.folder}/script; see the file console beside it")


def run_all(guests, at_once):
    """Runs guests, so many at a time."""
    with concurrent.futures.ThreadPoolExecutor(at_once) as pool:
        list(pool.map(Guest.run, guests))
