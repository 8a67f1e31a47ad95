"""Waits until a file is saved."""
from __future__ import annotations

import os
import time
from typing import List, Optional, Tuple

# So long is waited between two looks at the files.
PAUSE = 0.2
# What changes where a file is saved, also where another of the same size and time takes its place.
Marks = Optional[Tuple[int, ...]]


def times_of(files: List[str]) -> List[Marks]:
    found: List[Marks] = []
    for path in files:
        try:
            it = os.stat(path)
            found.append((it.st_mtime_ns, it.st_ctime_ns, it.st_size, it.st_dev, it.st_ino))
        except OSError:
            found.append(None)
    return found


def wait_for_save(files: List[str], times: List[Marks]) -> None:
    """Waits until a file changes, and until none changes any more: an editor may write in pieces."""
    while times_of(files) == times:
        time.sleep(PAUSE)
    while times_of(files) != times:
        times = times_of(files)
        time.sleep(PAUSE / 2)
