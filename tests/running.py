"""Runs of the program in a folder, some thousand of them: what tests/failing and tests/fuzz share.

A run costs little more than the program itself: it is begun without a copy of this process, and prints into files of a folder
in memory, where there is one."""

import atexit
import importlib.machinery
import importlib.util
import os
import shutil
import signal
import sys
import tempfile

TESTS = os.path.dirname(os.path.abspath(__file__))
sys.dont_write_bytecode = True


def program_of():
    """The program: SURGEON in the environment, or the built one."""
    return os.path.abspath(os.environ.get("SURGEON") or os.path.join(os.path.dirname(TESTS), "bin", "surgeon"))


def module_of(name):
    """Another file of this folder, as a module."""
    loader = importlib.machinery.SourceFileLoader(name, os.path.join(TESTS, name))
    module = importlib.util.module_from_spec(importlib.util.spec_from_loader(name, loader))
    loader.exec_module(module)
    return module


class Room:
    """A folder for runs, and beside it what the last run printed; and another one for what is built, since in the memory's folder nothing
    may be run."""

    def __init__(self):
        memory = "/dev/shm" if os.access("/dev/shm", os.W_OK | os.X_OK) else None
        self.top, self.built = tempfile.mkdtemp(dir=memory), tempfile.mkdtemp()
        self.place = os.path.join(self.top, *"abcdefgh", "room")  # so deep that no `..` of a script leads out
        os.makedirs(self.place)
        atexit.register(self.close)
        self.printed, self.said = (os.path.join(self.top, name) for name in ("printed", "said"))

    def fill(self, files):
        """These files alone are there."""
        with os.scandir(self.place) as entries:
            for entry in entries:
                if entry.is_dir(follow_symlinks=False):
                    shutil.rmtree(entry.path)
                else:
                    os.unlink(entry.path)
        for name, data in files.items():
            with open(os.path.join(self.place, name), "wb") as it:
                it.write(data)

    def files(self):
        """The files that are there."""
        found = {}
        with os.scandir(self.place) as entries:
            for entry in entries:
                if entry.is_file(follow_symlinks=False):
                    with open(entry.path, "rb") as it:
                        found[entry.name] = it.read()
        return found

    def run(self, words, seconds, environment=None):
        """The status, what is printed and what is said on standard error; the status is None where the run doesn't end in time."""
        os.chdir(self.place)
        new = os.O_WRONLY | os.O_CREAT | os.O_TRUNC
        pid = os.posix_spawn(words[0], words, os.environ if environment is None else {**os.environ, **environment}, file_actions=[
            (os.POSIX_SPAWN_OPEN, 0, os.devnull, os.O_RDONLY, 0),
            (os.POSIX_SPAWN_OPEN, 1, self.printed, new, 0o600),
            (os.POSIX_SPAWN_OPEN, 2, self.said, new, 0o600),
        ])
        late = []

        def end(*_):
            late.append(True)
            os.kill(pid, signal.SIGKILL)

        before = signal.signal(signal.SIGALRM, end)
        signal.setitimer(signal.ITIMER_REAL, seconds)
        _, ended = os.waitpid(pid, 0)
        signal.setitimer(signal.ITIMER_REAL, 0)
        signal.signal(signal.SIGALRM, before)
        with open(self.printed, "rb") as printed, open(self.said, "rb") as said:
            return None if late else os.waitstatus_to_exitcode(ended), printed.read(), said.read()

    def close(self):
        """Nothing of it is left; at the end of the process at the latest."""
        os.chdir("/")
        for folder in (self.top, self.built):
            shutil.rmtree(folder, ignore_errors=True)
