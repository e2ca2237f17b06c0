"""The programs that save and restore, as commands for the guest's shell. All that depends on which programs these are is here."""

import json
import os
import shutil
import subprocess

from guests import OUT, TOP, chosen, lacks

NAMES = ("tcrewrite", "tcshow", "tcmake", "tcnl", "tcsave", "tcrestore", "tcapply")
# Interfaces of guests are down, and random ones share actions.
ALLOWED = {"tcrestore": "--allow-down", "tcapply": "--allow-down --replace-actions"}


def built(profile):
    """The folder with the programs as cargo builds them from rust/conjareho-tools, in `target` or where CARGO_TARGET_DIR is. What cargo says goes to standard error."""
    if not shutil.which("cargo"):
        lacks("There is no cargo, which builds the programs: ./set-up --install installs it.")
    if subprocess.run(["cargo", "build", "--locked", "--profile", profile, "-p", "conjareho-tools", "--bins"], cwd=TOP).returncode:
        lacks("cargo didn't build the programs; ./set-up --install installs what they need.")
    metadata = subprocess.run(["cargo", "metadata", "--locked", "--no-deps", "--format-version", "1"], cwd=TOP, stdout=subprocess.PIPE, check=True)
    return f"{json.loads(metadata.stdout)['target_directory']}/{'debug' if profile == 'dev' else profile}"


class Programs:
    """The programs, those of a folder if one is named, and the shell's text that starts each of them."""

    def __init__(self, folder=None, profile="release"):
        self.folder = os.path.abspath(folder) if folder else built(profile)
        self.paths = {name: f"{self.folder}/{name}" for name in NAMES}
        for path in self.paths.values():
            if not os.access(path, os.X_OK):
                lacks(f"There is no program {path}.")
        os.makedirs(OUT, exist_ok=True)
        own = f"{OUT}/programs.{os.getpid()}"
        with open(own, "w") as file:
            file.writelines(f"{name.upper()}={path}\nexport {name.upper()}\n" for name, path in self.paths.items())
            file.write(f"TMPDIR={OUT}\nexport TMPDIR\n")
        os.replace(own, f"{OUT}/programs")  # another run may read it

    def rewriting(self):
        """The path of tcrewrite."""
        return self.paths["tcrewrite"]

    def command(self, text):
        return f". {OUT}/programs; {text}"

    def save(self, file, devs="d7"):
        """Saves interfaces."""
        return self.command(f"$TCSAVE {devs} > {file}")

    def restore(self, file, state, options=""):
        """Restores a save. What was there before is kept in the folder `state`."""
        return self.command(f"timeout {60 * chosen().slowness} $TCRESTORE {ALLOWED['tcrestore']} --state {state} {options} {file}")

    def apply(self, file, state):
        """Applies a save. What was there before is kept in the folder `state`."""
        return self.command(f"timeout {100 * chosen().slowness} $TCAPPLY {ALLOWED['tcapply']} --state {state} {file}")

    def applied(self, devs, command, state):
        """Applies to interfaces what a command makes."""
        named = " ".join(f"--dev {it}" for it in devs)
        return self.command(f"timeout {100 * chosen().slowness} $TCAPPLY {ALLOWED['tcapply']} --state {state} {named} -- {command}")

    def words(self, name, *options):
        """The words that start a program, without a shell."""
        return " ".join([self.paths[name], *filter(None, [ALLOWED.get(name)]), *options])

    def clear(self, dev="d7"):
        return self.command(f"$TCNL clear dev {dev}")

    def show(self, stream, file):
        """A netlink stream as lines of JSON."""
        return self.command(f"$TCSHOW --json < {stream} > {file}")

    def requests(self, file, *options):
        """The requests that tcmake makes of a save, as a netlink stream."""
        with open(file) as lines:
            words = [self.paths["tcmake"], *options, "--stream"]
            return subprocess.run(words, stdin=lines, capture_output=True).stdout
