#!/usr/bin/env python3
"""The layers of the producer's sources: layers.py FOLDER, where FOLDER has README.md and src/.

Under "Files", README.md lists the folders of src/, each after those that it needs. So a file includes headers of its
own folder and of folders before it in that list.
"""

import re
import sys
from pathlib import Path

top = Path(sys.argv[1])
files = re.search(r"^## Files$(.*?)^## ", (top / "README.md").read_text(), re.S | re.M)[1]
listed = re.search(r"folders earlier in this list: (.*?)\.", files)[1]
folders = re.findall(r"`(\w+)`", listed)
unlike = {path.name for path in (top / "src").iterdir()} ^ set(folders)
if unlike:
    sys.exit(f"README.md and src/ don't have the same folders: {' '.join(sorted(unlike))}")
faults = [
    f"{path.relative_to(top)} includes a header of {header}/, which isn't before its folder"
    for place, name in enumerate(folders)
    for path in sorted((top / "src" / name).iterdir())
    for header in re.findall(r'^#include "(\w+)/', path.read_text(), re.M)
    if header not in folders[: place + 1]
]
if faults:
    sys.exit("\n".join(faults))
