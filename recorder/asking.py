"""Other programs, as gdb, are asked for so many seconds together, and then given up."""
import subprocess
import time


class TooLong(Exception):
    """Which one was asked when the time was over."""


class Asking:
    def __init__(self, seconds: int | None = None):
        self.seconds = seconds
        self.end = time.monotonic() + seconds if seconds else None

    def run(self, command: list, **how) -> subprocess.CompletedProcess:
        left = None if self.end is None else max(self.end - time.monotonic(), 0)
        try:
            return subprocess.run(command, capture_output=True, timeout=left, **how)
        except subprocess.TimeoutExpired as late:
            raise TooLong(
                f"{command[0]} is not done, and telling took more than {self.seconds} s; see --limit"
            ) from late
