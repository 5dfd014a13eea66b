"""The example cabinet as a process: its console, its log and its store."""
import subprocess
import time
from pathlib import Path


class Cabinet:
    """A cabinet at work; its log is beside its store if not named. What is waited for comes at once unless there is a fault."""

    def __init__(self, program, store, *words, key=None, log=None):
        self.program, self.store = program, str(store)
        self.log = Path(log or self.store + ".log")
        signed = [] if key is None else ["--md5", str(key)]
        with self.log.open("a") as log:
            self.begun_at = log.tell()
            self.process = subprocess.Popen([program, *signed, self.store, *map(str, words)], stdin=subprocess.PIPE, stdout=log, stderr=subprocess.STDOUT, text=True, bufsize=1)

    def __enter__(self):
        return self

    def __exit__(self, *_):
        self.process.kill()
        self.process.wait()
        self.process.stdin.close()

    def tell(self, line):
        self.process.stdin.write(line + "\n")

    def said(self):
        """What it has said since it began."""
        with self.log.open() as log:
            log.seek(self.begun_at)
            return log.read()

    def wait(self, wanted, count=1):
        deadline = time.monotonic() + 100
        while self.said().count(wanted) < count:
            assert self.process.poll() is None, f"the cabinet ended, and {wanted!r} is wanted {count} times:\n{self.said()}"
            assert time.monotonic() < deadline, f"{wanted!r} is wanted {count} times:\n{self.said()}"
            time.sleep(0.02)

    def port(self):
        self.wait("listening ")
        return int(self.said().partition("listening ")[2].split("\n")[0])

    def stored(self):
        """The lines of `show`."""
        return stored(self.program, self.store)

    def wait_stored(self, *wanted):
        """Until its store lists exactly these lines behind the numbers."""
        deadline = time.monotonic() + 100
        while sorted(self.stored()[1:]) != sorted(wanted):
            assert time.monotonic() < deadline, f"{wanted} is wanted: {self.stored()}\n{self.said()}"
            time.sleep(0.02)

    def end(self):
        """It is told to end, and does."""
        self.tell("quit")
        assert self.process.wait(timeout=100) == 0, self.said()
        return self.said()


def stored(program, store):
    return subprocess.run([program, "show", store], check=True, capture_output=True, text=True).stdout.splitlines()
