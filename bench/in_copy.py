"""What the scripts of this folder share: a program of one file is proved, built and run in a temporary copy of the
repository, over what the crates here have already proved, and nothing is left behind."""
import contextlib
import os
import resource
import shutil
import subprocess
import sys
import tempfile

sys.dont_write_bytecode = True
TOP = os.path.dirname(os.path.dirname(os.path.abspath(__file__)))


def with_deep_stack():
    """Lets the child have as much stack as it may: deep trees are dropped by recursion."""
    _, most = resource.getrlimit(resource.RLIMIT_STACK)
    resource.setrlimit(resource.RLIMIT_STACK, (most, most))


@contextlib.contextmanager
def of_revision(revision):
    """Gives a folder with the repository as it was at a revision."""
    with tempfile.TemporaryDirectory() as folder:
        packed = subprocess.run(["git", "archive", revision], cwd=TOP, check=True, capture_output=True).stdout
        subprocess.run(["tar", "-x", "-C", folder], input=packed, check=True)
        yield folder


@contextlib.contextmanager
def built(crates, source, proofs=None, top=TOP):
    """Builds the program with this main.rt, over these crates of the repository in `top`, and gives its path and what it printed.
    `proofs` has the texts of its other files by their names, as they stand in the program's folder."""
    with tempfile.TemporaryDirectory() as folder:
        copy = os.path.join(folder, "copy")
        os.mkdir(copy)
        for name in ("crates", "crates.txt", "HANDLES"):
            there = os.path.join(top, name)
            if os.path.isdir(there):
                shutil.copytree(there, os.path.join(copy, name), symlinks=True)
            else:
                shutil.copy(there, copy)
        subprocess.run(["git", "init", "-q", copy], check=True)
        program = os.path.join(copy, "crates", "timed")
        os.makedirs(os.path.join(program, "src"))
        with open(os.path.join(program, "src", "main.rt"), "w") as file:
            file.write(source)
        for name, text in (proofs or {}).items():
            os.makedirs(os.path.join(program, os.path.dirname(name)), exist_ok=True)
            with open(os.path.join(program, name), "w") as file:
                file.write(text)
        with open(os.path.join(copy, "crates.txt"), "a") as file:
            file.write(f"timed: {' '.join(crates)}\n")
        done = subprocess.run(["rt", "run"], cwd=program, capture_output=True, text=True, preexec_fn=with_deep_stack)
        if done.returncode != 0:
            sys.exit(f"the program could not be run:\n{done.stdout}{done.stderr}")
        yield os.path.join(program, "out", "timed"), done.stdout


def run(crates, source, proofs=None):
    """Runs the program with this main.rt, over these crates, and returns what it printed."""
    with built(crates, source, proofs) as (_, printed):
        return printed
