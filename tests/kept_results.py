"""What earlier runs on this machine came to, each by the sum of all that it stands on."""

import json
import os
import re
import stat
import tempfile
import time
from pathlib import Path

# What wasn't used for so long is removed.
DAYS = 60


class KeptResults:
    """A folder of results for whoever runs this alone, under ~/.cache. One that can't be read counts for
    nothing."""

    def __init__(self, name: str):
        try:
            self.folder = Path(os.environ.get("XDG_CACHE_HOME") or Path.home() / ".cache") / name
            self.folder.mkdir(0o700, parents=True, exist_ok=True)
            found = self.folder.lstat()
            if not stat.S_ISDIR(found.st_mode) or found.st_uid != os.geteuid():
                raise PermissionError(self.folder)
            self.folder.chmod(0o700)
        except (OSError, RuntimeError):
            self.folder = None

    def get(self, key: str) -> str | None:
        """What was kept by this sum."""
        if not self.folder:
            return None
        try:
            found = json.loads((self.folder / key).read_text(encoding="utf-8"))
            os.utime(self.folder / key)
            return found["text"] if found["key"] == key and isinstance(found["text"], str) else None
        except (OSError, ValueError, KeyError, TypeError):
            return None

    def put(self, key: str, text: str):
        """Keeps a result. It is written apart and then renamed, so that no other run meets half of it."""
        if not self.folder:
            return
        try:
            how = {"dir": self.folder, "prefix": "new-", "delete": False, "encoding": "utf-8"}
            with tempfile.NamedTemporaryFile("w", **how) as file:
                json.dump({"key": key, "text": text}, file)
            os.replace(file.name, self.folder / key)
        except OSError:
            pass

    def shrink(self):
        """Removes what wasn't used for long, and what runs that were killed left half written."""
        limit = time.time() - DAYS * 86400
        for file in self.folder.iterdir() if self.folder else ():
            if re.fullmatch(r"[0-9a-f]{64}|new-\w+", file.name) and file.lstat().st_mtime < limit:
                file.unlink(missing_ok=True)
