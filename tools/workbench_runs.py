"""Runs of other programs for the workbench: each can be stopped, and none outlives it."""
import os
import shutil
import signal
import subprocess
import sys
import threading
from collections import namedtuple

from kaba_tools import HERE, PROGRAM

Answer = namedtuple("Answer", "status output error")  # the output as bytes, the error as a text

MOST_SECONDS = 600
STOPPED = -1


class Fault(Exception):
    """What the workbench was asked cannot be done; the text says why."""


class Runner:
    """Runs programs, and knows those that are running."""

    def __init__(self):
        self.lock, self.running, self.closed = threading.Lock(), {}, False
        # The kernel ends the run when the workbench is killed.
        guard = shutil.which("setpriv")
        self.front = [guard, "--pdeathsig", "KILL"] if guard else []

    def start(self, words, purpose, folder):
        with self.lock:
            if self.closed:
                raise Fault("the workbench is closing")
            for run, other in self.running.items():
                if purpose and other == purpose:
                    end(run)
            run = subprocess.Popen(
                [*self.front, *words],
                stdin=subprocess.DEVNULL,
                stdout=subprocess.PIPE,
                stderr=subprocess.PIPE,
                cwd=folder,
                start_new_session=True,
            )
            self.running[run] = purpose
            return run

    def run(self, words, purpose=None, seconds=MOST_SECONDS, folder=None):
        """The answer of a program; a run for a purpose ends an earlier one for the same."""
        try:
            run = self.start([str(word) for word in words], purpose, folder)
        except OSError as error:
            raise Fault(f"cannot run {words[0]}: {error.strerror}") from None
        try:
            output, error = run.communicate(timeout=seconds)
        except subprocess.TimeoutExpired:
            end(run)
            run.communicate()
            raise Fault(f"{os.path.basename(str(words[0]))} was stopped after {seconds} seconds") from None
        finally:
            with self.lock:
                self.running.pop(run, None)
        status = STOPPED if run.returncode < 0 else run.returncode
        return Answer(status, output, error.decode(errors="replace").strip())

    def kaba(self, *words, **how):
        return self.run([PROGRAM, *words], **how)

    def tool(self, name, *words, **how):
        """The answer of a tool that stands beside this one."""
        return self.run([sys.executable, HERE / "tools" / name, *words], **how)

    def close(self):
        """Ends each run, and lets none begin."""
        with self.lock:
            self.closed = True
            for run in self.running:
                end(run)


def end(run):
    """Ends a run and what it started."""
    try:
        os.killpg(run.pid, signal.SIGKILL)
    except ProcessLookupError:
        pass


def has_tool(name):
    return (HERE / "tools" / name).is_file()
