"""Builds the wheel, as pip asks of a backend (PEP 517). It needs cargo, and no Python package.

The library in the wheel is built from plain Rust (`../plain`), over Debian's crates and without the network where `../../set-up` finds them.
VTC_LIBRARY names another one, as the proved library of `make -C bindings`, to be taken instead.
"""

import base64
import hashlib
import os
import platform
import re
import subprocess
import tempfile
import zipfile

HERE = os.path.dirname(os.path.abspath(__file__))
TOP = os.path.dirname(os.path.dirname(HERE))
TARGET = os.environ.get("CARGO_TARGET_DIR") or f"{tempfile.gettempdir()}/conjareho-target"


def version():
    with open(f"{HERE}/vtc/__init__.py") as file:
        return ".".join(re.search(r"^_VERSION = \((\d+), (\d+), (\d+)\)$", file.read(), re.M).groups())


def library():
    """The file of the library, built if none is named."""
    if os.environ.get("VTC_LIBRARY"):
        return os.environ["VTC_LIBRARY"]
    if not os.path.exists(f"{TOP}/.cargo/config.toml"):
        subprocess.run([f"{TOP}/set-up"], check=True)
    words = ["cargo", "build", "--profile", "library", "--locked", "--quiet"]
    # Texts of panics name source files, without the folders of this machine.
    flags = f"{os.environ.get('RUSTFLAGS', '')} --remap-path-prefix={TARGET}=target --remap-path-prefix={TOP}=.".strip()
    subprocess.run(words, cwd=f"{TOP}/bindings/plain", check=True, env={**os.environ, "CARGO_TARGET_DIR": TARGET, "RUSTFLAGS": flags})
    return f"{TARGET}/library/libvtc.so"


def get_requires_for_build_wheel(config_settings=None):
    return []


def build_wheel(wheel_directory, config_settings=None, metadata_directory=None):
    """Writes the wheel into a folder, and returns its name."""
    tag = f"py3-none-linux_{platform.machine()}"
    name = f"vtc-{version()}-{tag}.whl"
    info = f"vtc-{version()}.dist-info"
    files = {f"vtc/{it}": f"{HERE}/vtc/{it}" for it in ("__init__.py", "__main__.py")}
    files["vtc/libvtc.so.0"] = library()
    texts = {
        f"{info}/METADATA": f"Metadata-Version: 2.1\nName: vtc\nVersion: {version()}\nSummary: Messages of Linux traffic control\n"
        "License: MIT\nRequires-Python: >=3.9\n",
        f"{info}/WHEEL": f"Wheel-Version: 1.0\nGenerator: vtc\nRoot-Is-Purelib: false\nTag: {tag}\n",
    }
    with zipfile.ZipFile(f"{wheel_directory}/{name}", "w", zipfile.ZIP_DEFLATED) as wheel:
        record = ""

        def put(inside, data):
            nonlocal record
            digest = base64.urlsafe_b64encode(hashlib.sha256(data).digest()).rstrip(b"=").decode()
            record += f"{inside},sha256={digest},{len(data)}\n"
            # The same wheel each time: no file has a time of its own.
            wheel.writestr(zipfile.ZipInfo(inside), data, zipfile.ZIP_DEFLATED)

        for inside, path in files.items():
            with open(path, "rb") as file:
                put(inside, file.read())
        for inside, text in texts.items():
            put(inside, text.encode())
        wheel.writestr(zipfile.ZipInfo(f"{info}/RECORD"), record + f"{info}/RECORD,,\n", zipfile.ZIP_DEFLATED)
    return name
