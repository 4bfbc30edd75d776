"""Where the programs are, and how they are built and run."""
import os
import subprocess
import sys

HERE = os.path.dirname(os.path.abspath(__file__))
TARGET = os.path.join(os.path.dirname(HERE), "target")
SECOND = os.path.join(TARGET, "second", "second")
OURS = os.environ.get("NARDLINTEL_BIN", os.path.join(TARGET, "bin"))
PROGRAMS = ("solve", "factors", "again")


def build():
    """Builds the second program if it is older than its sources."""
    sources = [os.path.join(HERE, name) for name in ("second.c", "body.h")]
    if os.path.exists(SECOND) and all(os.path.getmtime(s) < os.path.getmtime(SECOND) for s in sources):
        return
    os.makedirs(os.path.dirname(SECOND), exist_ok=True)
    command = ["gcc", "-std=c11", "-O2", "-ffp-contract=off", "-Wall", "-Wextra", "-o", SECOND, sources[0], "-lm"]
    subprocess.run(command, check=True)


def second(program):
    """The command that runs a program of the second program."""
    return [SECOND, program]


def ours(program):
    """The command that runs one of our programs."""
    return [os.path.join(OURS, program)]


def need_ours():
    """Ends if our programs are not built."""
    missing = [name for name in PROGRAMS if not os.access(ours(name)[0], os.X_OK)]
    if missing:
        sys.exit(f"not built in {OURS}: {' '.join(missing)} (NARDLINTEL_BIN names another folder)")


def run(command, text):
    """What a command prints for a text on its standard input, and its status."""
    done = subprocess.run(command, input=text, stdout=subprocess.PIPE)
    return done.stdout, done.returncode


def arguments(usage):
    """COUNT and SEED."""
    if len(sys.argv) != 3 or not all(word.isdecimal() for word in sys.argv[1:]):
        sys.exit(usage)
    return int(sys.argv[1]), int(sys.argv[2])
