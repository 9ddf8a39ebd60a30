"""What the machine has for a check: processors and free memory, under the limits of a control group too."""
from __future__ import annotations

import os
import re
import sys
from pathlib import Path

# A control group's files, in its two versions: the limit of its memory, and what it holds of that.
MEMORY_LIMITS = (
    ("/sys/fs/cgroup/memory.max", "/sys/fs/cgroup/memory.stat", r"^anon (\d+)"),
    ("/sys/fs/cgroup/memory/memory.limit_in_bytes", "/sys/fs/cgroup/memory/memory.stat", r"^total_rss (\d+)"),
)
# The processor time that it may use in a period, and the period.
QUOTAS = (
    ("/sys/fs/cgroup/cpu.max", "/sys/fs/cgroup/cpu.max", r"^\d+ (\d+)"),
    ("/sys/fs/cgroup/cpu/cpu.cfs_quota_us", "/sys/fs/cgroup/cpu/cpu.cfs_period_us", r"^(\d+)"),
)


def number_in(file: str, pattern: str) -> int | None:
    """The number in a line of a file, if there is one."""
    try:
        found = re.search(pattern, Path(file).read_text(), re.M)
    except OSError:
        return None
    return int(found[1]) if found else None


def free_memory() -> int:
    """How many bytes of memory are free."""
    available = number_in("/proc/meminfo", r"^MemAvailable:\s+(\d+) kB")
    free = [] if available is None else [1024 * available]
    for limit_file, file, pattern in MEMORY_LIMITS:
        limit, held = number_in(limit_file, r"^(\d+)"), number_in(file, pattern)
        if limit is not None and held is not None:
            free.append(limit - held)
    return min(free, default=sys.maxsize)


def processors() -> int:
    """How many processors there are to use."""
    found = len(os.sched_getaffinity(0))
    for quota_file, file, pattern in QUOTAS:
        quota, period = number_in(quota_file, r"^(\d+)"), number_in(file, pattern)
        if quota and period:
            found = min(found, max(1, quota // period))
    return found
