"""The WebAssembly modules of the page and of the package for Node, made of modules for LLVM."""
from __future__ import annotations

import shutil
import subprocess
import tempfile
from pathlib import Path

from build.sources import ROOT
from build.targets import TARGETS

CODE = ROOT / "bindings/javascript/code"
# The tools, and the packages of Debian that have them.
TOOLS = {"wasm-ld": "lld", "wasm-opt": "binaryen"}
ALONE = ["-ffreestanding", "-fno-builtin", "-Wall", "-Wextra", "-Werror"]
# What wasm-opt calls the parts of WebAssembly that are used.
FEATURES = ["memory64", "bulk-memory", "sign-ext", "nontrapping-float-to-int"]


def lacking() -> list[str]:
    """The tools that aren't there."""
    return [tool for tool in TOOLS if shutil.which(tool) is None]


def make(module: Path, exports: list[str], imports: list[str], stack: int) -> bytes:
    """The bytes of a WebAssembly module, of one for LLVM: with these functions, and these calls of JavaScript's.

    Both have words of 64 bits. wasm-opt turns the addresses into those of 32, which all browsers and Node 20 have.
    """
    target = TARGETS["node"]
    with tempfile.TemporaryDirectory() as folder:
        scratch = Path(folder)
        objects = [target.module(module, scratch / "tsp.o"), target.pair(scratch / "pair.o")]
        for name in ("heap", "wide") if "__xpg_strerror_r" in imports else ("heap", "wide", "errors"):
            objects.append(scratch / f"{name}.o")
            target.clang(*target.words, "-O3", "-ffunction-sections", "-c", *ALONE, CODE / f"{name}.c", "-o", objects[-1])
        (scratch / "imports").write_text("".join(f"{name}\n" for name in imports))
        words = ["wasm-ld", "-mwasm64", "--no-entry", "--gc-sections", "--strip-all", "-z", f"stack-size={stack}", "--stack-first"]
        words += [f"--allow-undefined-file={scratch / 'imports'}", *(f"--export={name}" for name in exports)]
        subprocess.run([*words, "-o", scratch / "tsp64.wasm", *objects], check=True)
        words = ["wasm-opt", *(f"--enable-{name}" for name in FEATURES), "--memory64-lowering", "-O2"]
        subprocess.run([*words, scratch / "tsp64.wasm", "-o", scratch / "tsp.wasm"], check=True)
        return (scratch / "tsp.wasm").read_bytes()
