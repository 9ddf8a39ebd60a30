"""The library for C made without a proof, for tests of the bindings where nothing is proved.

`rt try` lowers programs alone, so the library's crate becomes one whose main calls each export. It is never run.
"""
from __future__ import annotations

import re
from pathlib import Path

from build.compiled import TARGET, passed_on, trimmed
from build.sources import LIBRARY, lay_out
from build.toolchain import Failed, clang, lowered, run, text_of

EXPORT = re.compile(r'^#\[unsafe\(no_mangle\)\]\npub extern "C" fn (\w+)\(([^)]*)\)', re.M)
# What the calls of an export are given. (The program is lowered and never run.)
GIVEN = {"Global": "rt.alloc()", "&[u8]": 'b""', "&[u32]": "&[]", "&mut [u8]": "&mut []", "&mut [i64]": "&mut []",
         "&mut Handle": "&mut handle", "&mut CallResult": "&mut call_result", "&mut usize": "&mut written", "&mut u32": "&mut count",
         "u32": "0", "i64": "0"}
CALLS = """
fn main(rt: HostRuntime) -> std::process::ExitCode {{
    let mut handle = Handle::closed(rt.alloc());
    let mut call_result = CallResult::blank();
    let mut written = 0usize;
    let mut count = 0u32;
{}    handle.end();
    std::process::ExitCode::from(0)
}}
"""
# (A handle has to be taken apart: it isn't dropped.)
END = """
impl Handle {
    pub(crate) fn end(self) {
        let Handle { is_open: _, loose } = self;
        loose.end();
    }
}
"""


def calls_of(source: str) -> tuple[list[str], str]:
    """The exports of the library's source, and a main that calls each."""
    names, lines = [], []
    for name, parameters in EXPORT.findall(source):
        kinds = [it.split(":", 1)[1].strip() for it in parameters.split(",") if it.strip()]
        if strange := [kind for kind in kinds if kind not in GIVEN]:
            raise Failed(f"{name} takes {strange[0]}, for which scripts/build/library.py has no value")
        names.append(name)
        lines.append(f"    let _ = {name}({', '.join(GIVEN[kind] for kind in kinds)});\n")
    if not names:
        raise Failed("the library has no export")
    return names, CALLS.format("".join(lines))


def exported(text: bytes, names: list[str]) -> bytes:
    """The module of the program as that of the library: its exports have the names that C knows, and its main none."""
    for name in map(str.encode, names):
        own = b'@"' + LIBRARY.encode() + b"::" + name + b'"'
        if own not in text:
            raise Failed(f"the module has no {name.decode()}")
        text = re.sub(rb"^define internal ([^\n@]*)" + re.escape(own), rb"define \1" + own, text, flags=re.M).replace(own, b"@" + name)
    return text.replace(b"define i32 @main()", b'define internal i32 @"no main"()')


def make_library(folder: Path, scratch: Path) -> None:
    """Makes the library's archive, and its module in LLVM's language, in a folder."""
    copy = scratch / "copy"
    copy.mkdir()
    lay_out([LIBRARY], copy)
    listed, source = copy / "crates.txt", copy / "crates" / LIBRARY / "src/lib.rt"
    listed.write_text(listed.read_text().replace(f"{LIBRARY} staticlib:", f"{LIBRARY}:"))
    names, calls = calls_of(source.read_text())
    source.with_name("main.rt").write_text(source.read_text() + calls)
    source.unlink()
    handle = source.with_name("handle.rt")
    handle.write_text(handle.read_text() + END)
    caught, words = lowered(copy / "crates" / LIBRARY, scratch)
    text = exported(trimmed(text_of(caught, scratch / "module.ll")), names)
    module, made = scratch / "tsp_c.ll", scratch / "tsp_c.o"
    module.write_bytes(text)
    # (by clang: the linker leaves a call of the system in code that nothing reaches)
    plain = ["--no-default-config", f"--target={TARGET}", "-fPIC", "-ffunction-sections", "-fdata-sections", "-O2", "-c", "-x", "ir"]
    run(clang(), *plain, *passed_on(words), module, "-o", made)
    folder.mkdir(parents=True, exist_ok=True)
    run("ar", "rcsD", folder / "libtsp_c.a", made)
    (folder / "tsp_c.ll").write_bytes(text)
