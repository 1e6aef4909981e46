"""A scratch clone of the repository in which `./sn` is built by a stub of the toolchain's command `rt`.

The stub proves nothing: it says what `rt` says of two crates, waits, and puts a given program where `rt run` puts it.
So the script `sn` is tested from the state of a fresh clone, in seconds.
"""

import os
import shutil
import signal
import subprocess
import tempfile
import time

import program

STUB = r"""#!/usr/bin/env bash
if [ "$1" = version ]; then
    echo "stub of rt"
    exit 0
fi
echo "$*" >>"$SCRATCH/builds"
echo "rt: chose --jobs 4 for sn_low"
echo "so far: 0 of 40 functions checked; the verdict comes last"
echo "so far: 7 of 40 functions checked"
echo "fn sn_low::low: proved"
echo "logic=proved functions=40 sum=0"
echo "rt: chose --jobs 4 for sn_cli" >&2
if [ -e "$SCRATCH/refuses" ]; then
    echo "fn sn_cli::main: not proved" >&2
    exit 1
fi
# While this file is there the build goes on.
while [ -e "$SCRATCH/hold" ]; do sleep 0.05; done
if [ -e "$SCRATCH/edits" ]; then
    echo "// changed" >>src/main.rt
fi
echo "logic=proved functions=1 sum=0"
mkdir -p out
cp "$SCRATCH/program" out/sn_cli
exec out/sn_cli "${@:3}"
"""

# Prints its words and copies its input.
ECHO = """#!/usr/bin/env bash
echo "program $*"
exec cat
"""

CRATES = "# NAME: the libraries that it stands on\nsn_cli: sn_low clap\nsn_low: thiserror\nsn_other: sn_low\n"
TOOLS = (
    "awk bash cat chmod cp cut dirname env find flock grep mkdir mv readlink rm sed sha256sum sleep sort sync tail wc xargs"
)


def ends_by_signals():
    """Lets the process that begins be ended by signals that this one ignores, as it does under nohup: no shell can trap those."""
    for number in (signal.SIGINT, signal.SIGTERM, signal.SIGHUP):
        signal.signal(number, signal.SIG_DFL)


class Clone:
    """A clone with nothing built; `program` is the file that the stub builds, a small script where it is left out."""

    def __init__(self, built=None, with_tools=(), without=()):
        self.scratch = os.path.realpath(tempfile.mkdtemp(prefix="sn-scratch-"))
        self.top = os.path.join(self.scratch, "clone")
        self.write("bin/rt", STUB)
        self.write("clone/crates.txt", CRATES)
        self.write("clone/HANDLES", "Handles allowed: none.\n")
        for crate, root in (("sn_cli", "main"), ("sn_low", "lib"), ("sn_other", "lib")):
            self.write("clone/crates/%s/src/%s.rt" % (crate, root), "// %s\n" % crate)
        shutil.copy(os.path.join(program.TOP, "sn"), self.top)
        if built is None:
            self.write("program", ECHO)
        else:
            shutil.copy(built, os.path.join(self.scratch, "program"))
        for tool in {*TOOLS.split(), *with_tools} - set(without):
            found = shutil.which(tool)
            if found:
                os.symlink(found, os.path.join(self.scratch, "bin", tool))
        path = os.path.join(self.scratch, "bin")
        self.environment = {"PATH": path, "SCRATCH": self.scratch, "LC_ALL": "C"}
        self.started = []

    def write(self, name, text):
        path = os.path.join(self.scratch, name)
        os.makedirs(os.path.dirname(path), exist_ok=True)
        with open(path, "w") as file:
            file.write(text)
        os.chmod(path, 0o755)

    def remove(self, name):
        os.remove(os.path.join(self.scratch, name))

    def builds(self):
        """How often the stub was asked for the program."""
        try:
            with open(os.path.join(self.scratch, "builds")) as file:
                return len(file.readlines())
        except FileNotFoundError:
            return 0

    def kept(self):
        """The programs that were built, and what is left of building them."""
        names = os.listdir(os.path.join(self.top, ".built"))
        return sorted(name for name in names if name not in ("lock", "log"))

    def start(self, *words, shell=None):
        """Starts `./sn` with these words, or a line of the shell, in a session of its own."""
        run = ["bash", "-o", "pipefail", "-c", shell] if shell else ["./sn", *words]
        pipes = dict(stdin=subprocess.PIPE, stdout=subprocess.PIPE, stderr=subprocess.PIPE)
        how = dict(cwd=self.top, env=self.environment, start_new_session=True, preexec_fn=ends_by_signals, **pipes)
        process = subprocess.Popen(run, **how)
        self.started.append(process)
        return process

    def ended(self, process, given=b""):
        out, err = process.communicate(given, timeout=60)
        return process.returncode, out, err.decode()

    def run(self, *words, given=b"", shell=None):
        return self.ended(self.start(*words, shell=shell), given)

    def wait_for(self, holds):
        end = time.time() + 30
        while not holds():
            if time.time() > end:
                raise AssertionError("nothing came of it")
            time.sleep(0.02)

    def close(self):
        for process in self.started:
            try:
                os.killpg(process.pid, signal.SIGKILL)
            except ProcessLookupError:
                pass
            for pipe in (process.stdin, process.stdout, process.stderr):
                pipe.close()
            process.wait()
        shutil.rmtree(self.scratch)
