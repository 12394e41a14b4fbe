"""How deep each call writes the stack: painted (tests/stack.c), and held to the limits of include/axle_gateway.h; a call that works by
either hash, and the calls of SHA-384, also to what order 7 aims at."""

import functools
import pathlib
import re
import subprocess

ROOT = pathlib.Path(__file__).resolve().parent.parent
LIBRARY = ROOT / "target/staticlib/libgateway.a"
KNOWN = {"known_return": 8, "known_thousand": 8 + 1000, "known_by_value": 8 + 112}
SLACK = 64  # a limit that stands this far above what is written is to be lowered
BY_HASH = ("axle_extended_master_secret", "axle_master_secret", "axle_log_finish", "axle_log_expected_finished")
AIMS = {
    **{f"axle_{name}": 1280 for name in ("hash384_fresh", "hash384_absorb", "hash384_digest", "sha384")},
    "axle_hmac_sha384": 1800,
    **{f"{name}.sha256": 2048 for name in BY_HASH},
    **{f"{name}.sha384": 2816 for name in BY_HASH},
}


@functools.cache
def painted():
    """{call: (fewest, most)}: the bytes that its cases wrote; by hash too, the call with .sha256 or .sha384 behind it."""
    program = ROOT / "target/tests/stack"
    program.parent.mkdir(parents=True, exist_ok=True)
    flags = ["-O0", "-mno-red-zone", "-static", "-Wall", "-Wextra", "-Werror", f"-I{ROOT}/include", f"-I{ROOT}/tests"]
    subprocess.run(["gcc", *flags, "-o", program, ROOT / "tests/stack.c", LIBRARY], check=True)
    said = subprocess.run([program], capture_output=True, text=True, check=True).stdout
    return {name: (int(least), int(most)) for name, least, most in map(str.split, said.splitlines())}


def exported():
    said = subprocess.run(["nm", "-g", "--defined-only", LIBRARY], capture_output=True, text=True, check=True).stdout
    return set(re.findall(r" T (\w+)", said))


def limits():
    """{call: limit} of the header."""
    header = (ROOT / "include/axle_gateway.h").read_text()
    return {f"axle_{name.lower()}": int(limit) for name, limit in re.findall(r"\bAXLE_STACK_(\w+) = (\d+)", header)}


def documented():
    """{call: bytes} of the table in docs/PERFORMANCE.md."""
    rows = re.findall(r"^\| `(axle_\w+)` \| ([\d,]+) \|", (ROOT / "docs/PERFORMANCE.md").read_text(), re.M)
    return {name: int(number.replace(",", "")) for name, number in rows}


def test_every_call_within_its_limit():
    bounds = limits()
    depths = {name: of for name, of in painted().items() if "." not in name}
    assert {name: depths.pop(name) for name in KNOWN} == {name: (n, n) for name, n in KNOWN.items()}
    assert depths.keys() == bounds.keys() == exported()
    for name, (_, most) in depths.items():
        assert most <= bounds[name], f"{name} writes {most} bytes of stack, its limit is {bounds[name]}"
        assert bounds[name] < most + SLACK, f"{name} writes {most} bytes of stack: lower its limit of {bounds[name]}"
    hashes = "axle_(hash_.*|sha256)", "axle_(hash384_.*|sha384)"
    deepest = [max(most for name, (_, most) in depths.items() if re.fullmatch(of, name)) for of in hashes]
    return f"{len(depths)} calls, the deepest of each hash {deepest[0]} and {deepest[1]} bytes"


def test_what_order_7_aims_at():
    over = [f"{name} {painted()[name][1]}, not under {aim}" for name, aim in AIMS.items() if painted()[name][1] >= aim]
    assert not over, "; ".join(over)


def test_the_table_of_limits():
    assert documented() == limits()
