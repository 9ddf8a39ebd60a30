"""Wine, which runs programs for Windows. tests/systems/systems and tests/systems/releases import it: run both after a
change."""
from __future__ import annotations

import os
import signal
import subprocess


class Wine:
    """A process of wine that lasts, so that others find the system started: else their output isn't ended before it."""

    def __enter__(self) -> Wine:
        words = {"stdin": subprocess.DEVNULL, "stdout": subprocess.DEVNULL, "stderr": subprocess.DEVNULL}
        os.environ.setdefault("WINEDEBUG", "-all")
        self.process = subprocess.Popen(["wine", "cmd", "/c", "ping -n 7200 127.0.0.1"], start_new_session=True, **words)
        subprocess.run(["wine", "cmd", "/c", "ver"], timeout=300, **words)
        return self

    def __exit__(self, *_: object) -> None:
        os.killpg(self.process.pid, signal.SIGTERM)
        self.process.wait()
