"""tools/install: a program that knows nothing but the prefix is built and run."""

import os
import pathlib
import re
import shlex
import shutil
import subprocess
import tempfile

from tests.test_header import HEADER, ROOT, STRICT, said, version

INSTALL = ROOT / "tools/install"
WARNINGS = [word for word in STRICT if word.startswith("-W") or word == "-pedantic"]


def installed(folder):
    return {str(p.relative_to(folder)) for p in folder.rglob("*") if not p.is_dir()}


def program(folder, *words):
    """tests/header.c, built with these words, by the compiler that a stranger would call."""
    said("gcc", "-std=c99", *WARNINGS, ROOT / "tests/header.c", "-o", folder / "program", *words)
    return folder / "program"


def runs(built, folder):
    line = said(built, env={**os.environ, "LD_LIBRARY_PATH": str(folder)}).splitlines()[-1]
    assert line.endswith(f" cases, 0 wrong, version {version()}"), line


def needs(built):
    return re.findall(r"NEEDED.*\[(libaxle.*)\]", said("readelf", "-d", built))


def test_install():
    v = version()
    interface = v.rpartition(".")[0]
    with tempfile.TemporaryDirectory() as temporary:
        folder = pathlib.Path(temporary)
        prefix = folder / "a prefix"
        said(INSTALL, prefix.name, cwd=folder)  # relative, and with a space
        said(INSTALL, prefix)  # again, over the first
        shared = f"libaxle_gateway.so.{v}"
        assert installed(prefix) == {
            "include/axle_gateway.h",
            "lib/libaxle_gateway.a",
            f"lib/{shared}",
            f"lib/libaxle_gateway.so.{interface}",
            "lib/libaxle_gateway.so",
            "lib/pkgconfig/axle_gateway.pc",
        }
        assert (prefix / "include/axle_gateway.h").read_bytes() == HEADER.read_bytes()
        assert (prefix / "lib/libaxle_gateway.a").read_bytes() == (ROOT / "target/staticlib/libgateway.a").read_bytes()

        built = program(folder, f"-I{prefix}/include", f"-L{prefix}/lib", "-laxle_gateway")
        assert needs(built) == [f"libaxle_gateway.so.{interface}"]
        runs(built, prefix / "lib")
        static = program(folder, f"-I{prefix}/include", prefix / "lib/libaxle_gateway.a")
        assert needs(static) == []
        runs(static, "")
        if not shutil.which("pkg-config"):
            return "pkg-config is missing: tried without it"
        here = {**os.environ, "PKG_CONFIG_PATH": str(prefix / "lib/pkgconfig")}
        assert said("pkg-config", "--modversion", "axle_gateway", env=here) == f"{v}\n"
        words = shlex.split(said("pkg-config", "--cflags", "--libs", "axle_gateway", env=here))
        runs(program(folder, *words), prefix / "lib")
        return "with pkg-config and without"


def test_from_the_build_tree():
    if not shutil.which("pkg-config"):
        return "pkg-config is missing: not tried"
    here = {**os.environ, "PKG_CONFIG_PATH": str(ROOT / "target/c")}
    words = shlex.split(said("pkg-config", "--cflags", "--libs", "axle_gateway", env=here))
    with tempfile.TemporaryDirectory() as temporary:
        runs(program(pathlib.Path(temporary), *words), ROOT / "target/c")


def test_below_a_package():
    with tempfile.TemporaryDirectory() as temporary:
        said(INSTALL, "/opt/axle", env={**os.environ, "DESTDIR": temporary})
        file = pathlib.Path(temporary, "opt/axle/lib/pkgconfig/axle_gateway.pc").read_text()
        assert file.startswith("prefix=/opt/axle\n") and "\nlibdir=${prefix}/lib\n" in file and str(ROOT) not in file


def test_refusals():
    for words in ((), ("",), ("a", "b")):
        run = subprocess.run([INSTALL, *words], capture_output=True, text=True)
        assert (run.returncode, run.stdout, run.stderr) == (2, "", "usage: tools/install PREFIX\n")
    with tempfile.TemporaryDirectory() as temporary:
        bare = pathlib.Path(temporary)
        shutil.copytree(ROOT / "include", bare / "include")
        (bare / "tools").mkdir()
        shutil.copy(INSTALL, bare / "tools")
        run = subprocess.run([bare / "tools/install", bare / "to"], capture_output=True, text=True)
        assert run.returncode == 1 and run.stderr.count("\n") == 1 and "tools/build" in run.stderr
        assert not (bare / "to").exists()
