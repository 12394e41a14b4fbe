"""What include/axle_gateway.h says beside the calls: by tests/header.c, and by looking at the libraries themselves."""

import pathlib
import re
import shutil
import subprocess

ROOT = pathlib.Path(__file__).resolve().parent.parent
HEADER = ROOT / "include/axle_gateway.h"
ARCHIVE = ROOT / "target/staticlib/libgateway.a"
SHARED = ROOT / "target/c"
STRICT = ["-Wall", "-Wextra", "-Werror", "-pedantic", f"-I{ROOT}/include"]


def said(*command, **more):
    """What a command writes; it must succeed."""
    run = subprocess.run(command, capture_output=True, text=True, **more)
    assert run.returncode == 0, f"{command}: {run.stdout}{run.stderr}"
    return run.stdout


def version():
    return re.search(r'^#define AXLE_GATEWAY_VERSION "(.*)"$', HEADER.read_text(), re.M)[1]


def test_header_in_c_and_in_cpp():
    """Alone, without a warning, in each language of each compiler that is here."""
    tried = []
    for compiler, language, standards in (
        ("gcc", "c", ("c99", "c17")),
        ("g++", "c++", ("c++98", "c++17")),
        ("clang", "c", ("c99",)),
        ("clang++", "c++", ("c++11",)),
    ):
        for standard in standards if shutil.which(compiler) else ():
            said(compiler, f"-std={standard}", *STRICT, "-fsyntax-only", "-x", language, "-", input='#include "axle_gateway.h"\n')
            tried.append(f"{compiler} {standard}")
    assert "gcc c99" in tried
    return ", ".join(tried) + ("" if shutil.which("g++") else "; g++ is missing: C++ was not tried by it")


def holds(compiler, *words):
    """Builds tests/header.c and runs it: all its cases must hold."""
    program = ROOT / f"target/tests/header-{compiler}"
    program.parent.mkdir(parents=True, exist_ok=True)
    language = "c++" if compiler.endswith("++") else "c"
    said(compiler, "-O2", *STRICT, "-x", language, ROOT / "tests/header.c", "-x", "none", "-o", program, *words)
    line = said(program).splitlines()[-1]
    assert re.fullmatch(rf"[1-9]\d+ cases, 0 wrong, version {re.escape(version())}", line), line
    return line


def test_what_it_says_in_c():
    return holds("gcc", "-std=c99", ARCHIVE)


def test_what_it_says_in_cpp():
    if not shutil.which("g++"):
        return "g++ is missing: not tried"
    return holds("g++", "-std=c++98", f"-L{SHARED}", "-laxle_gateway", f"-Wl,-rpath,{SHARED}")


def test_wiping_is_not_optimised_away():
    source = '#include "axle_gateway.h"\nvoid fill(uint8_t *);\nvoid f(void) { uint8_t k[64]; fill(k); axle_wipe(k, sizeof k); }\n'
    assert re.search(r"movb\s+\$0", said("gcc", "-O3", *STRICT, "-S", "-x", "c", "-", "-o", "-", input=source))


def test_one_version():
    """The header's, in the shared library's soname, in the pkg-config file and in the Rust crate."""
    v = version()
    numbers = [re.search(rf"^#define AXLE_GATEWAY_VERSION_{part} (\d+)$", HEADER.read_text(), re.M)[1] for part in ("MAJOR", "MINOR", "PATCH")]
    assert v == ".".join(numbers)
    soname = re.search(r"SONAME.*\[(.*)\]", said("readelf", "-d", SHARED / "libaxle_gateway.so"))[1]
    assert soname == f"libaxle_gateway.so.{numbers[0]}.{numbers[1]}"
    assert (SHARED / "libaxle_gateway.so").resolve().name == f"libaxle_gateway.so.{v}" == (SHARED / soname).resolve().name
    assert f"\nVersion: {v}\n" in (SHARED / "axle_gateway.pc").read_text()
    for file in ("Cargo.toml", "Cargo.lock"):
        assert re.search(rf'^name = "axle-gateway"\nversion = "{re.escape(v)}"$', (ROOT / "bindings/rust" / file).read_text(), re.M), file
    return v


def test_nothing_is_shared_between_calls():
    """No byte of the archive can be written to, and it asks for nothing but memcpy and memset."""
    text, data, bss = said("size", ARCHIVE).splitlines()[1].split()[:3]
    assert int(text) > 0 and (data, bss) == ("0", "0")
    assert set(re.findall(r" U (\w+)", said("nm", "-u", ARCHIVE))) == {"memcpy", "memset"}


def test_any_x86_64():
    """The assembler for the first x86-64 takes every instruction of the archive back, but for jumps, which lost their marks."""
    lines = re.findall(r"^ *[0-9a-f]+:\t(.*)$", said("objdump", "-d", "--no-show-raw-insn", ARCHIVE), re.M)
    code = sorted({re.sub(r"<.*>|#.*|data16 ", "", line) for line in lines if not re.match(r"j|call", line)})
    assert len(code) > 1000
    oldest = ["as", "-march=generic64", "-", "-o", "/dev/null"]
    said(*oldest, input="\n".join(code) + "\n")
    newer = subprocess.run(oldest, input="pshufb %xmm0,%xmm1\n", capture_output=True, text=True)
    assert newer.returncode != 0
    return f"{len(code)} instructions"
