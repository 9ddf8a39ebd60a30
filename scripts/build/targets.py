"""Modules for LLVM that the toolchain makes for Linux on x86-64, for other systems.

The proved code has no instruction of x86-64 in them, and neither vectors nor floating point that another processor
does in another way. A program's `main` asks for the processor first, which is left out. All targets have words of 64 bits,
put the least byte first, and align numbers of 128 bits to 16 bytes. So only the target's two lines, and the function
attributes of the processor and of its stack, are replaced.
"""
from __future__ import annotations

import fcntl
import hashlib
import re
import shutil
import subprocess
from dataclasses import dataclass
from pathlib import Path

from build import toolchain
from build.sources import NATIVE, ROOT, SYSTEMS

# Words that the toolchain gives to its own call of clang, but those of x86-64 alone.
LIKE_TOOLCHAIN = """-mllvm -no-trap-after-noreturn -mllvm -trap-unreachable -mllvm -disable-machine-licm
    -mllvm -disable-postra-machine-licm -mllvm -sink-common-insts=false""".split()
# A multiplication and an addition are never joined to one operation, which would round once.
COMPILE = ["-O3", "-ffp-contract=off", "-ffunction-sections", "-fdata-sections", "-Werror", "-c"]
PROCESSOR = re.compile(rb' "(?:target-cpu|target-features|tune-cpu)"="[^"]*"')
PROBES = re.compile(rb' "(?:probe-stack|stack-probe-size)"="[^"]*"')
MAIN = re.compile(rb"^define i32 @main\(\)", re.M)
# A program first asks whether the processor has what x86-64-v2 has, and else writes a line and ends.
ASKS = re.compile(
    rb"^  %\w+ = call ptr @__x86_get_cpuid_feature_leaf\(i32 0\)\n(?:  .*\n)*?  br i1 %\w+, label %run, label %refuse\n", re.M
)
# What can't be for another processor.
OF_X86 = re.compile(rb"\b(?:call|invoke)\b[^\n]*(?:@__x86_|@llvm\.x86\.|\basm\b)")
# The calls of the system that the program makes.
CALLS = """isatty open read write close fcntl statx __xpg_strerror_r __sysv_signal
    rattle_arg rattle_env rattle_env_at rattle_errno rattle_set_errno""".split()
CALLED = re.compile(rb"@(" + "|".join(CALLS).encode() + rb")\(")


@dataclass(frozen=True)
class Target:
    """A system: its name in SYSTEMS, how clang calls it, clang's words for it, whether LLVM knows how to probe its
    stack as on Linux, and whether the program's calls get names of their own (`host_open`), since its C library has
    other ones."""

    name: str
    triple: str
    words: tuple[str, ...] = ()
    probes: bool = False
    renames: bool = False

    def clang(self, *words: str | Path) -> None:
        """Runs the toolchain's clang for this target."""
        subprocess.run([toolchain.clang(), "--no-default-config", f"--target={self.triple}", *words], check=True)

    def lines(self) -> list[bytes]:
        """The two lines by which a module names its target."""
        words: list[str | Path] = [toolchain.clang(), "--no-default-config", f"--target={self.triple}", "-S", "-emit-llvm", "-x", "c", "-o", "-", "/dev/null"]
        made = subprocess.run(words, check=True, capture_output=True).stdout
        return re.findall(rb'^target (?:datalayout|triple) = "[^"]*"$', made, re.M)

    def text(self, text: bytes) -> bytes:
        """The text of a module for Linux on x86-64, for this target. Its `main` is `tsp_main`, and its `--version`
        says which system it is for."""
        for line in self.lines():
            begins = line[: line.index(b" = ")]
            text = re.sub(rb"^" + begins + rb' = "[^"]*"$', lambda _: line, text, count=1, flags=re.M)
        text = PROCESSOR.sub(b"", text)
        if not self.probes:
            text = PROBES.sub(b"", text)
        if self.renames:
            text = CALLED.sub(rb"@host_\1(", text)
        text = text.replace(SYSTEMS[NATIVE].encode(), SYSTEMS[self.name].encode())
        text = ASKS.sub(b"  br label %run\n", text, count=1)
        found = OF_X86.search(text)
        if found:
            raise toolchain.Failed(f"the module is of x86-64 alone: {found[0].decode()}")
        return MAIN.sub(b"define i32 @tsp_main()", text)

    def compile(self, text: bytes, made: Path) -> Path:
        """The object file of a module's text in LLVM's language, which is for this target."""
        source = made.with_suffix(".ll")
        source.write_bytes(text)
        self.clang(*self.words, *COMPILE, "-x", "ir", source, "-o", made)
        return made

    def pair(self, made: Path) -> Path:
        """The object file of the calls by which the proved code takes memory, over a heap in C."""
        return self.compile(b"\n".join([*self.lines(), PAIR.read_bytes()]), made)

    def module(self, given: Path, made: Path) -> Path:
        """The object file of a module that the toolchain made for Linux on x86-64. It takes a minute, so it is kept
        beside the module, under the sum of the text and of clang's words."""
        text = self.text(toolchain.text_of(given, made.with_suffix(".x86.ll")))
        key = hashlib.sha256(repr((toolchain.kit(), self.words, COMPILE, hashlib.sha256(text).digest())).encode()).hexdigest()
        kept = given.with_name(f"{given.stem}.{self.name}.{key[:16]}.o")
        # (one call compiles it, and others wait for it)
        with open(given.with_name(f"{given.stem}.{self.name}.lock"), "w") as lock:
            fcntl.flock(lock, fcntl.LOCK_EX)
            if not kept.exists():
                # (beside it first, so that a file which is there is whole)
                shutil.copyfile(self.compile(text, made), new := kept.with_suffix(".new"))
                new.replace(kept)
        shutil.copyfile(kept, made)
        return made


PAIR = ROOT / "bindings/systems/pair.ll"
OF_WASM = ("-mcpu=mvp", "-mbulk-memory", "-msign-ext", "-mnontrapping-fptoint")
TARGETS = {
    target.name: target
    for target in (
        Target("linux-aarch64", "aarch64-unknown-linux-gnu", ("-fPIC", *LIKE_TOOLCHAIN), probes=True),
        Target("windows-x86_64", "x86_64-w64-windows-gnu", (*LIKE_TOOLCHAIN,), renames=True),
        Target("node", "wasm64-unknown-unknown", OF_WASM),
    )
}
