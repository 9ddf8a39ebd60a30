"""The archives of a release, of which the same files give the same bytes; their sums and signatures."""
from __future__ import annotations

import gzip
import hashlib
import subprocess
import sys
import tarfile
import tempfile
import time
import zipfile
from collections.abc import Iterable
from pathlib import Path
from typing import IO, cast

# The ends of the names of signatures, by ssh-keygen and by gpg.
SIGNED = (".sig", ".asc")


def sum_of_file(path: Path) -> str:
    """The sum of a file, as sha256sum prints it."""
    return hashlib.sha256(path.read_bytes()).hexdigest()


def write_sums(top: Path) -> None:
    """The sum of each file."""
    files = sorted(path for path in top.rglob("*") if path.is_file() and not path.is_symlink())
    (top / "SHA256SUMS").write_text("".join(f"{sum_of_file(path)}  {path.relative_to(top)}\n" for path in files))


def pack(top: Path, tarball: Path, when: int) -> None:
    """The tarball of a folder. Its files get this time, in seconds."""

    def plain(member: tarfile.TarInfo) -> tarfile.TarInfo:
        member.mtime, member.uid, member.gid, member.uname, member.gname = when, 0, 0, "", ""
        member.mode = 0o755 if member.isdir() or member.mode & 0o100 else 0o644
        return member

    with open(tarball, "wb") as file, gzip.GzipFile("", "wb", 9, file, mtime=when) as packed:
        with tarfile.open(fileobj=cast(IO[bytes], packed), mode="w", format=tarfile.PAX_FORMAT) as tar:
            for path in [top, *sorted(top.rglob("*"))]:
                tar.add(path, f"{top.name}/{path.relative_to(top)}".rstrip("/."), recursive=False, filter=plain)


def pack_zip(top: Path, path: Path, when: int) -> None:
    """The zip of a folder. Its files get this time, in seconds."""
    date = time.gmtime(when)[:6]
    with zipfile.ZipFile(path, "w", zipfile.ZIP_DEFLATED, compresslevel=9) as packed:
        for file in sorted(path for path in top.rglob("*") if path.is_file()):
            info = zipfile.ZipInfo(f"{top.name}/{file.relative_to(top).as_posix()}", date)
            info.external_attr = (0o755 if file.suffix == ".exe" else 0o644) << 16
            info.compress_type = zipfile.ZIP_DEFLATED
            packed.writestr(info, file.read_bytes())


def sums_in(tarball: Path) -> dict[str, str]:
    """The sums of a tarball's files, and its own."""
    with tarfile.open(tarball) as tar:
        inside = {member.name: tar.extractfile(member) for member in tar.getmembers() if member.isfile()}
        sums = {name: hashlib.sha256(file.read()).hexdigest() for name, file in inside.items() if file}
    return {**sums, tarball.name: sum_of_file(tarball)}


def sign(tarball: Path, key: str) -> Path:
    """Signs a tarball; the path of the signature."""
    words: list[str | Path]
    if Path(key).is_file():
        signature = Path(f"{tarball}{SIGNED[0]}")
        words = ["ssh-keygen", "-Y", "sign", "-q", "-f", key, "-n", "yokecairn", tarball]
    else:
        signature = Path(f"{tarball}{SIGNED[1]}")
        words = ["gpg", "--batch", "--yes", "--local-user", key, "--armor", "--output", signature, "--detach-sign", tarball]
    try:
        subprocess.run(words, check=True, stdout=sys.stderr)
    except FileNotFoundError:
        sys.exit(f"release: there is no {words[0]} to sign with: apt-get install {'openssh-client' if words[0] != 'gpg' else 'gnupg'}")
    except subprocess.CalledProcessError:
        sys.exit(f"release: {words[0]} doesn't sign by the key {key}")
    return signature


def try_key(key: str) -> None:
    """Ends where a key signs nothing, before anything is made."""
    with tempfile.TemporaryDirectory() as folder:
        nothing = Path(folder, "nothing")
        nothing.write_bytes(b"")
        sign(nothing, key)


def publish(files: Iterable[Path], key: str | None = None) -> None:
    """Writes the sum of each file beside it, and signs it where a key is given; a signature of what was there before
    is removed. Prints what is there."""
    for made in files:
        for end in SIGNED:
            Path(f"{made}{end}").unlink(missing_ok=True)
        line = f"{sum_of_file(made)}  {made.name}"
        Path(f"{made}.sha256").write_text(line + "\n")
        print("\n".join([*map(str, [made, *([sign(made, key)] if key else [])]), line]))
