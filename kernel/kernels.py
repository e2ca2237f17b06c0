"""The kernels of guests: User Mode Linux, which is a process, and Debian's packages, which qemu runs.

A package is taken from Debian's mirror into out/kernels/VERSION: found by an apt of its own (out/apt), so that the machine's stays as it is, and unpacked
with dpkg-deb. Nothing is installed."""

import collections
import contextlib
import fcntl
import glob
import lzma
import os
import re
import shutil
import subprocess
import time

HERE = os.path.dirname(os.path.abspath(__file__))
OUT = f"{HERE}/out"

# Where Debian has kernels, the oldest first.
SUITES = ("bookworm", "bookworm-backports", "trixie", "trixie-backports")
MIRROR, KEYS = "http://deb.debian.org/debian", "/usr/share/keyrings/debian-archive-keyring.gpg"
META = "linux-image-amd64"  # depends on the newest kernel of its suite
FRESH = 86400  # seconds after which Debian is asked again
PARTS = r"linux-(?:image|binary|base|modules)-\d"  # the packages with a kernel and its modules, which newer ones have apart

# Modules by which a guest has the machine's files, before it can load others from there; those that a kernel lacks are built into it.
FIRST = ("virtio", "virtio_ring", "virtio_pci_modern_dev", "virtio_pci_legacy_dev", "virtio_pci", "fscache", "netfs", "9pnet", "9pnet_virtio", "9p")

# Modules that a guest may need, with what these need.
WANTED = r"(net|lib|crypto|arch|kernel|fs/(9p|netfs|fscache)|drivers/(virtio|net/netdevsim))/|drivers/net/(dummy|ifb|nlmon|veth)\.ko"

TRIAL = 30  # seconds in which a kernel has to end with KVM
SLOWLY = 8  # how much longer what has a time limit takes without KVM

# A kernel: its name, the command line that boots it up to what depends on the guest, where its modules are, what time limits are multiplied by, the folder with
# an iproute2 of its age, empty for the machine's own, and the version of that.
Kernel = collections.namedtuple("Kernel", "name words modules slowness is_uml iproute2 tc")


class Lacking(Exception):
    """Something isn't there; the text says what to install."""


def need(program, package):
    path = shutil.which(program, path=f"{os.environ['PATH']}:/usr/sbin:/sbin")
    if not path:
        raise Lacking(f"The package {package} is not installed, which has {program}.")
    return path


def uml():
    path = shutil.which("linux.uml")
    if not path or not os.path.isdir("/usr/lib/uml/modules"):
        raise Lacking("The package user-mode-linux is not installed, which has the kernel that is asked.")
    release = next(iter(sorted(os.listdir("/usr/lib/uml/modules"))), "")
    return Kernel(f"{release}-uml", [path], "/usr/lib/uml/modules", 1, True, *iproute2(release))


# ---- Packages


def apt(*words):
    """An apt that knows Debian's suites of SUITES, and whose files are below out/apt."""
    own = f"{OUT}/apt"
    for folder in ("lists/partial", "cache/archives/partial"):
        os.makedirs(f"{own}/{folder}", exist_ok=True)
    if not os.path.exists(KEYS):
        raise Lacking("The package debian-archive-keyring is not installed, by whose keys kernels are checked.")
    with open(f"{own}/sources.list", "w") as file:
        file.writelines(f"deb [arch=amd64 signed-by={KEYS}] {MIRROR} {it} main\n" for it in SUITES)
    places = {"Dir::Etc::sourcelist": f"{own}/sources.list", "Dir::Etc::sourceparts": "/dev/null", "Dir::State::lists": f"{own}/lists", "Dir::Cache": f"{own}/cache"}
    options = [f"-o{key}={value}" for key, value in places.items()]
    done = subprocess.run([need(words[0], "apt"), *options, "-oAPT::Sandbox::User=root", *words[1:]], cwd=own, capture_output=True, text=True)
    if done.returncode:
        raise Lacking(f"{' '.join(words)}: {done.stderr.strip()[-500:]}")
    return done.stdout


def update():
    """What Debian has is asked once a day. Without a network what was there before counts."""
    own = f"{OUT}/apt/updated"
    if os.path.exists(own) and time.time() - os.path.getmtime(own) < FRESH:
        return
    try:
        apt("apt-get", "-qq", "update")
    except Lacking:
        if not os.path.exists(own):
            raise
    open(own, "w").close()


def show(package):
    """What the suites have of a package: a paragraph for each version."""
    with locked():
        update()
        return apt("apt-cache", "show", package)


def versions():
    """What the suites have: versions of META, the newest first, each with the packages that have that kernel."""
    out = {}
    for text in show(META).split("\n\n"):
        own = dict(re.findall(r"^(Version|Depends): (.*)$", text, re.M))
        if own:
            out[own["Version"]] = re.findall(rf"({PARTS}[^\s,]*)", own.get("Depends", ""))
    return dict(sorted(out.items(), key=lambda it: number(it[0]), reverse=True))


def number(version):
    return [int(it) for it in re.findall(r"\d+", version.partition("-")[0])]


def fetch(wanted):
    """Unpacks the newest kernel whose version begins as wanted (`6.12`) into out/kernels; `newest` is the newest of all. Returns the folder."""
    begins = [] if wanted == "newest" else number(wanted)
    known = versions()
    found = [(version, packages) for version, packages in known.items() if number(version)[: len(begins)] == begins]
    if not found:
        raise Lacking(f"Debian has no kernel {wanted}: {', '.join(known)}")
    version, packages = found[0]
    return unpacked(f"kernels/{version}", lambda folder: fill(folder, version, packages))


def fill(folder, version, packages):
    depends = re.search(r"^Depends: (.*)$", apt("apt-cache", "show", f"{packages[0]}={version}"), re.M)[1]
    for it in dict.fromkeys([*packages, *re.findall(rf"({PARTS}[^\s,]*)", depends)]):
        unpack(f"{it}={version}", folder)
    make_modules(folder)


def unpacked(name, fill):
    """The folder of this name below out, which `fill` fills once."""
    folder = f"{OUT}/{name}"
    with locked():
        if not os.path.exists(f"{folder}/complete"):
            shutil.rmtree(folder, ignore_errors=True)
            os.makedirs(folder)
            fill(folder)
            open(f"{folder}/complete", "w").close()
    return folder


@contextlib.contextmanager
def locked():
    """One at a time fetches kernels, or records what was found: others wait."""
    os.makedirs(OUT, exist_ok=True)
    with open(f"{OUT}/lock", "w") as file:
        fcntl.flock(file, fcntl.LOCK_EX)
        yield


def unpack(package, folder):
    apt("apt-get", "-qq", "download", package)
    for path in glob.glob(f"{OUT}/apt/{package.partition('=')[0]}_*.deb"):
        subprocess.run([need("dpkg-deb", "dpkg"), "-x", path, folder], check=True)
        os.remove(path)


def iproute2(kernel):
    """The folder with Debian's newest iproute2 that runs with the machine's libraries, for a kernel that is newer than the machine's own; "" for that. And the
    version of its tc."""
    own = version_of(need("tc", "iproute2"))
    if number(kernel)[:2] <= number(own)[:2]:
        return "", own
    every = set(re.findall(r"^Version: (.*)$", show("iproute2"), re.M))
    for version in sorted(every, key=lambda it: (number(it), "~" not in it), reverse=True):
        folder = unpacked(f"iproute2/{version}", lambda folder: unpack(f"iproute2={version}", folder))
        found = next((version_of(it) for it in (f"{folder}/sbin/tc", f"{folder}/usr/sbin/tc") if os.path.exists(it)), "")
        if found:
            return (folder, found) if number(found) > number(own) else ("", own)
    return "", own


def version_of(tc):
    """The version of a tc; empty if it doesn't run here."""
    done = subprocess.run([tc, "-V"], capture_output=True, text=True)
    return done.stdout.partition("iproute2-")[2].partition(",")[0].strip()


def release_of(folder):
    """The version by which a kernel calls itself, and where its modules are."""
    path = next(it for it in glob.glob(f"{folder}/lib/modules/*") + glob.glob(f"{folder}/usr/lib/modules/*") if os.path.isdir(f"{it}/kernel"))
    return os.path.basename(path), path


def make_modules(folder):
    """Puts the modules that a guest may need, not compressed, into base/lib/modules/RELEASE, and says what depends on what."""
    release, path = release_of(folder)
    own = f"{folder}/base/lib/modules/{release}"
    names = glob.glob(f"{path}/kernel/**/*.ko*", recursive=True)
    for name in [it for it in names if re.match(WANTED, os.path.relpath(it, f"{path}/kernel"))]:
        relative = os.path.relpath(name, path)
        os.makedirs(os.path.dirname(f"{own}/{relative}"), exist_ok=True)
        if name.endswith(".xz"):
            with lzma.open(name) as file, open(f"{own}/{relative.removesuffix('.xz')}", "wb") as out:
                shutil.copyfileobj(file, out)
        else:
            os.replace(name, f"{own}/{relative}")
    for name in glob.glob(f"{path}/modules.*"):
        shutil.copy(name, own)
    shutil.rmtree(f"{path}/kernel")
    subprocess.run([need("depmod", "kmod"), "-b", f"{folder}/base", release], check=True)


# ---- What boots


def works(qemu, folder):
    """Whether KVM boots this kernel here: without a root file system it ends at once. Some machines have /dev/kvm, and not what such a kernel needs. It is
    tried once."""
    known = f"{folder}/kvm"
    if not os.access("/dev/kvm", os.R_OK | os.W_OK):
        return False
    if not os.path.exists(known):
        words = [*qemu, *accelerated(True), "-kernel", vmlinuz(folder), "-append", "console=ttyS0 panic=-1 quiet"]
        try:
            done = subprocess.run(words, stdin=subprocess.DEVNULL, capture_output=True, timeout=TRIAL).returncode == 0
        except subprocess.TimeoutExpired:
            done = False
        with open(known, "w") as file:
            file.write("works" if done else "doesn't work")
    with open(known) as file:
        return file.read() == "works"


def accelerated(with_kvm):
    return ["-accel", "kvm", "-cpu", "host"] if with_kvm else ["-accel", "tcg", "-cpu", "max,la57=off"]


def vmlinuz(folder):
    return next(path for it in ("boot/vmlinuz-*", "usr/lib/modules/*/vmlinuz") for path in glob.glob(f"{folder}/{it}"))


def cpio(files):
    """An archive that a kernel unpacks: path, mode and content of each."""
    out = b""
    for inode, (path, mode, data) in enumerate([*files, ("TRAILER!!!", 0, b"")], 1):
        fields = [inode, mode, 0, 0, 1, 0, len(data), 0, 0, 0, 0, len(path) + 1, 0]
        head = b"070701" + b"".join(b"%08x" % it for it in fields) + path.encode() + b"\0"
        out += head + bytes(-len(head) % 4) + data + bytes(-len(data) % 4)
    return out


def initial(folder, guest):
    """The file with the guest's first process, and the modules by which it has the machine's files."""
    _, own = release_of(f"{folder}/base")
    files = [(it, 0o40755, b"") for it in ("dev", "proc", "host", "first")]
    with open(guest, "rb") as file:
        files.append(("init", 0o100755, file.read()))
    names = {os.path.basename(it).removesuffix(".ko").replace("-", "_"): it for it in glob.glob(f"{own}/kernel/**/*.ko", recursive=True)}
    for at, name in enumerate(it for it in FIRST if it in names):
        with open(names[name], "rb") as file:
            files.append((f"first/{at:02}", 0o100644, file.read()))
    path = f"{folder}/initial"
    with open(path, "wb") as file:
        file.write(cpio(files))
    return path


def debian(wanted, guest, with_kvm=True):
    """Debian's kernel of a version in qemu."""
    qemu = [need("qemu-system-x86_64", "qemu-system-x86"), "-smp", "2", "-m", "512M", "-nodefaults", "-no-user-config", "-no-reboot", "-display", "none", "-serial", "stdio"]
    folder = fetch(wanted)
    kvm = with_kvm and works(qemu, folder)
    words = [*qemu, *accelerated(kvm), "-kernel", vmlinuz(folder), "-initrd", initial(folder, guest)]
    # The machine's files, as a guest finds them when it boots, and below out as they are.
    for tag, path in (("machine", "/"), ("out", OUT)):
        words += ["-fsdev", f"local,id={tag},path={path},security_model=none,multidevs=remap", "-device", f"virtio-9p-pci,fsdev={tag},mount_tag={tag}"]
    release, modules = release_of(f"{folder}/base")
    return Kernel(release, words, os.path.dirname(modules), 1 if kvm else SLOWLY, False, *iproute2(release))
