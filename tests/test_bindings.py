"""The Rust crate, against the static library that tools/build left: its own tests, its examples, and what it says of itself."""

import hashlib
import os
import re
import shutil
import subprocess
import sys
import tempfile

from tests import Missing
from tests.test_header import HEADER, ROOT, said

CRATE = ROOT / "bindings/rust"
BUILT = ROOT / "target/rust"

if not shutil.which("cargo"):
    raise Missing("cargo is not installed, or not on the PATH: the Rust crate's tests want it")


def files():
    """What stands in the crate's folder, and since when."""
    return {p: p.stat().st_mtime_ns for p in CRATE.rglob("*") if p.is_file()}


FILES = files()


def cargo(*words, folder=BUILT, **variables):
    command = ["cargo", words[0], "--offline", "--locked", "--quiet", *words[1:]]
    env = {**os.environ, "CARGO_TARGET_DIR": str(folder), **variables}
    return subprocess.run(command, cwd=CRATE, env=env, capture_output=True, text=True)


def clean(run):
    """A cargo command that must succeed without a word on standard error."""
    assert run.returncode == 0 and run.stderr == "", run.stdout + run.stderr
    return run.stdout


def test_cargo_test():
    passed = sum(int(n) for n in re.findall(r"(\d+) passed", clean(cargo("test"))))
    assert passed > 15
    return f"{passed} tests of cargo"


def test_examples():
    lines = clean(cargo("run", "--example", "handshake")).splitlines()
    completed = "Connection { completed: true, indication: true, barred: false, .. }"
    assert lines == [
        "full handshake, 11 bytes of reply",
        f"{completed}, Table {{ held: [0, 0, 1, 0, 0, 0], .. }}",
        "resumed handshake, 11 bytes of reply",
        f"{completed}, Session {{ ems: true, suite: 59, secret: Secret(..) }}",
    ]
    program, data = BUILT / "debug/examples/sha256", bytes(range(256)) * 100
    with tempfile.NamedTemporaryFile() as file:
        file.write(data)
        file.flush()
        assert said(program, file.name) == f"{hashlib.sha256(data).hexdigest()}  {file.name}\n"
        file.write(bytes(1_048_576))
        file.flush()
        run = subprocess.run([program, file.name], capture_output=True, text=True)
        assert (run.returncode, run.stdout) == (1, "") and "refused with 10" in run.stderr


def has(tool):
    return subprocess.run(["cargo", tool, "--version"], capture_output=True).returncode == 0


def test_format():
    if not has("fmt"):
        return "rustfmt is missing: not tried"
    run = subprocess.run(["cargo", "fmt", "--check"], cwd=CRATE, capture_output=True, text=True)
    assert run.returncode == 0, run.stdout + run.stderr


def test_clippy():
    if not has("clippy"):
        return "clippy is missing: not tried"
    clean(cargo("clippy", "--all-targets", "--", "-D", "warnings"))


def test_documents():
    clean(cargo("doc", "--no-deps", RUSTDOCFLAGS="-D warnings"))


BARE = """#![no_std]
#![no_main]
use core::panic::PanicInfo;

#[panic_handler]
fn panic(_: &PanicInfo) -> ! {
    loop {}
}

#[no_mangle] // the core that comes with the compiler was made for unwinding
pub extern "C" fn rust_eh_personality() {}

#[no_mangle]
pub extern "C" fn main() -> i32 {
    match axle_gateway::sha256(b"abc") {
        Ok(digest) => i32::from(digest[0]),
        Err(_) => 0,
    }
}
"""


def test_without_std():
    """A program without std, with a panic handler of its own: a crate that brought std along would bring a second one."""
    with tempfile.TemporaryDirectory() as folder:
        rustc = ["rustc", "--edition", "2021", "-C", "panic=abort", "--out-dir", folder, "-L", folder, "-L", ROOT / "target/staticlib"]
        said(*rustc, "--crate-type", "lib", "--crate-name", "axle_gateway", "-l", "static=gateway", CRATE / "src/lib.rs")
        said(*rustc, "--crate-name", "bare", "--extern", "axle_gateway", "-C", "link-arg=-lc", "-", input=BARE)
        assert subprocess.run([f"{folder}/bare"]).returncode == 0xBA


def test_missing_and_installed_library():
    with tempfile.TemporaryDirectory() as folder:
        run = cargo("build", folder=f"{folder}/built", AXLE_GATEWAY_LIB=folder)
        said_first = run.stderr.splitlines()[0]
        assert run.returncode != 0 and "tools/build" in said_first and folder in said_first and "panicked" not in run.stderr, run.stderr
        said(ROOT / "tools/install", folder)
        clean(cargo("build", "--example", "sha256", folder=f"{folder}/built", AXLE_GATEWAY_LIB=f"{folder}/lib"))


def test_missing_cargo():
    """The gate says it in one line."""
    run = subprocess.run([sys.executable, "tests/runner.py", "test_bindings"], cwd=ROOT, env={"PATH": "/none"}, capture_output=True, text=True)
    assert (run.returncode, run.stderr) == (1, "")
    assert re.fullmatch(r"test_bindings: FAILED: cargo is not installed.*\n0 passed, 1 failed\n", run.stdout)


NUMBERS = {name: int(n) for name, n in re.findall(r"^    AXLE_(\w+) = (\d+)", HEADER.read_text(), re.M)}
TYPES = {"uint8_t": "u8", "uint16_t": "u16", "uint32_t": "u32", "uint64_t": "u64", "size_t": "usize"}


def rust_type(word):
    """The name in ffi.rs of a type of the header."""
    return TYPES.get(word) or word.removeprefix("Axle")


def c_field(words):
    """(name, type) of a field or an argument, with the type as ffi.rs writes it."""
    const, kind, star, name, _, size = re.fullmatch(r"(const )?(\w+) (\*)?(\w+)(\[(?:AXLE_)?(\w+)\])?", words.strip()).groups()
    kind = rust_type(kind)
    if size:
        kind = f"[{kind}; {NUMBERS.get(size, size)}]"
    return name, f"*{'const' if const else 'mut'} {kind}" if star else kind


def test_the_c_face_is_the_header_s():
    """Structs, calls, sizes and refusals of the crate, read beside those of the header."""
    header = re.sub(r"/\*.*?\*/", "", HEADER.read_text(), flags=re.S)
    header = re.sub(r"static inline .*?\n}\n", "", header, flags=re.S)
    ffi = (CRATE / "src/ffi.rs").read_text()
    structs = {
        rust_type(name): [c_field(f) for f in body.strip().rstrip(";").split(";")]
        for body, name in re.findall(r"typedef struct \{(.*?)\} (\w+);", header, re.S)
    }
    calls = {
        name: ([c_field(f) for f in arguments.split(",") if f != "void"], rust_type(answer))
        for answer, name, arguments in re.findall(r"^(\w+) (axle_\w+)\((.*?)\);", header, re.M | re.S)
    }
    rust_field = re.compile(r"(?:pub )?(\w+): ([^,\n]+)")
    in_rust = {name: rust_field.findall(body) for name, body in re.findall(r"pub struct (\w+) \{(.*?)\n\}", ffi, re.S)}
    assert in_rust == structs
    called = re.findall(r"pub fn (axle_\w+)\((.*?)\) -> (\w+);", ffi, re.S)
    assert {name: (rust_field.findall(arguments), answer) for name, arguments, answer in called} == calls
    consts = re.findall(r"pub const (\w+): usize = ([\d_]+);", (CRATE / "src/sizes.rs").read_text())
    assert consts == [(name, n) for name, n in consts if NUMBERS[name] == int(n.replace("_", ""))]
    assert {name for name in NUMBERS if name.endswith(("_MAX", "_SIZE", "AXLES", "AN_AXLE"))} == {name for name, _ in consts}
    types = re.findall(r"pub const (\w+): u16 = (\w+);", (CRATE / "src/writing.rs").read_text())
    assert {f"TYPE_{name}": int(n, 0) for name, n in types} == {name: n for name, n in NUMBERS.items() if name.startswith("TYPE_")}
    refusals = re.findall(r"Refusal::(\w+)(?: \{ \.\. \})? => (\d+),", (CRATE / "src/refusal.rs").read_text())
    shouted = [(re.sub(r"(?<!^)(?=[A-Z])", "_", name).upper(), int(n)) for name, n in refusals]
    assert shouted == [(name, NUMBERS[name]) for name, _ in shouted] and [n for _, n in shouted] == list(range(1, 13))
    return f"{len(structs)} structs, {len(calls)} calls, {len(consts)} sizes, {len(shouted)} refusals"


def test_cargo_wrote_nothing_here():
    assert files() == FILES
