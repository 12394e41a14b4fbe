"""SHA-256 and SHA-384: the published vectors, every short length, block boundaries, and runs of absorbs against hashlib."""

import itertools
import random
from typing import Any, Callable, NamedTuple

from oracle import numbers, secrets
from tests import face, values


class Kind(NamedTuple):
    """One of the two hashes: its flag, its struct and its calls."""

    sha384: bool
    struct: Any
    one_shot: Callable
    fresh: Callable
    absorb: Callable
    digest: Callable

    @property
    def block(self):
        return 128 if self.sha384 else 64

    @property
    def width(self):
        return 48 if self.sha384 else 32

    def of(self, message):
        """The second program's digest."""
        return secrets.digest(self.sha384, message)

    def at_once(self, message):
        answer = self.one_shot(message)
        return answer.refusal.plain(), bytes(answer.digest)

    def in_pieces(self, pieces):
        """The digest of the pieces, taken one after the other, each of which must be accepted."""
        h = self.fresh()
        for piece in pieces:
            answer = self.absorb(h, piece)
            assert answer.refusal.plain() == DONE
            h = answer.hash
        return bytes(self.digest(h).bytes)


SHA256 = Kind(False, face.Hash, face.sha256, face.hash_fresh, face.hash_absorb, face.hash_digest)
SHA384 = Kind(True, face.Hash384, face.sha384, face.hash384_fresh, face.hash384_absorb, face.hash384_digest)
KINDS = (SHA256, SHA384)
TWO_BLOCKS = b"abcdefghbcdefghicdefghijdefghijkefghijklfghijklmghijklmnhijklmnoijklmnopjklmnopqklmnopqrlmnopqrsmnopqrstnopqrstu"
# FIPS 180-4's examples (NIST, SHA256.pdf, SHA384.pdf and the long message of FIPS 180-2): hash, message, digest. Those of SHA-384 are
# taken from the tests of Python's hashlib, which have them from there.
PUBLISHED = [
    (SHA256, b"", "e3b0c44298fc1c149afbf4c8996fb92427ae41e4649b934ca495991b7852b855"),
    (SHA256, b"abc", "ba7816bf8f01cfea414140de5dae2223b00361a396177a9cb410ff61f20015ad"),
    (
        SHA256,
        b"abcdbcdecdefdefgefghfghighijhijkijkljklmklmnlmnomnopnopq",
        "248d6a61d20638b8e5c026930c3e6039a33ce45964ff2167f6ecedd419db06c1",
    ),
    (SHA256, TWO_BLOCKS, "cf5b16a778af8380036ce59e7b0492370b249b11e8f07a51afac45037afee9d1"),
    (SHA256, b"a" * 1_000_000, "cdc76e5c9914fb9281a1c7e284d73e67f1809a48a497200e046d39ccc7112cd0"),
    (SHA384, b"", "38b060a751ac96384cd9327eb1b1e36a21fdb71114be07434c0cc7bf63f6e1da274edebfe76f65fbd51ad2f14898b95b"),
    (SHA384, b"abc", "cb00753f45a35e8bb5a03d699ac65007272c32ab0eded1631a8b605a43ff5bed8086072ba1e7cc2358baeca134c825a7"),
    (SHA384, TWO_BLOCKS, "09330c33f71147e83d192fc782cd1b4753111b173b3b05d22fa08086e3b0f712fcc7c71a557e2db966c3e9fa91746039"),
    (SHA384, b"a" * 1_000_000, "9d0e1809716474cb086e834e310a4a1ced149e9c00f248527972cec5704c2a5b07b8b3dc38ecc4ebae97ddd87f3d8985"),
]
DONE, TOO_LONG = numbers.refusal(0), numbers.refusal(10)


def test_published_vectors():
    for kind, message, digest in PUBLISHED:
        assert kind.at_once(message) == (DONE, bytes.fromhex(digest))
        assert kind.in_pieces([message]).hex() == digest
        pieces = [message[i : i + 1000] for i in range(0, len(message), 1000)]
        assert kind.in_pieces(pieces).hex() == digest == secrets.digest(kind.sha384, message).hex()


def test_every_length_to_600():
    for kind, seed in ((SHA256, 1), (SHA384, 7)):
        r = random.Random(seed)
        for n in range(601):
            message = r.randbytes(n)
            assert kind.at_once(message)[1] == kind.in_pieces([message]) == kind.of(message), (kind.width, n)


def test_lengths_around_block_boundaries():
    message = random.Random(2).randbytes(secrets.HASH_LIMIT + 1)
    for kind in KINDS:
        room = kind.block - kind.block // 8  # for the last bytes of a message: a bit and the length stand behind them
        blocks = [2**k for k in range(0, 15)] + [3, 100, 1000, secrets.HASH_LIMIT // kind.block - 1]
        lengths = {kind.block * b + d for b in blocks for d in (-17, -16, -9, -8, -1, 0, 1, room - 1, room)}
        for n in sorted(lengths | {secrets.HASH_LIMIT - 1, secrets.HASH_LIMIT}):
            if 0 <= n <= secrets.HASH_LIMIT:
                assert kind.at_once(message[:n]) == (DONE, kind.of(message[:n])), (kind.width, n)


def test_the_limit():
    message = bytes(secrets.HASH_LIMIT + 1)
    for kind in KINDS:
        assert kind.at_once(message) == (TOO_LONG, bytes(kind.width))
        assert secrets.one_shot(kind.sha384, message) == (10, bytes(kind.width))
        h = kind.absorb(kind.fresh(), message[:-1]).hash
        before = face.plain(h)
        for part in (b"x", message):
            answer = kind.absorb(h, part)
            assert answer.refusal.plain() == TOO_LONG
            assert face.plain(answer.hash) == before
        assert kind.absorb(h, b"").refusal.number == 0
        assert bytes(kind.digest(h).bytes) == kind.of(message[:-1])
        fresh = kind.fresh()
        answer = kind.absorb(fresh, message)
        assert answer.refusal.number == 10 and face.plain(answer.hash) == face.plain(fresh)


def test_all_splits():
    """Of 200 bytes with SHA-256, of 400 with SHA-384."""
    for kind, n in ((SHA256, 200), (SHA384, 400)):
        message = random.Random(3).randbytes(n)
        for i in range(n + 1):
            assert kind.in_pieces([message[:i], message[i:]]) == kind.of(message), (kind.width, i)


def test_cuts_where_the_padding_turns():
    """Messages whose last block is nearly full, has room for a bit and the length or just not, or is full: at once, in two pieces by every
    cut, and in three by the cuts that stand in such places themselves."""
    r, cuts = random.Random(8), 0
    for kind, ends in ((SHA256, (55, 56, 63, 64, 119, 120, 127, 128)), (SHA384, (111, 112, 127, 128, 239, 240, 255, 256))):
        near = sorted({end + d for end in ends for d in (-1, 0, 1)})
        for n in near:
            message = r.randbytes(n)
            right = kind.of(message)
            assert kind.at_once(message) == (DONE, right), (kind.width, n)
            places = [(i,) for i in range(n + 1)] + [pair for pair in itertools.combinations(near, 2) if pair[1] <= n]
            for place in places:
                pieces = [message[a:b] for a, b in itertools.pairwise((0, *place, n))]
                assert kind.in_pieces(pieces) == right, (kind.width, n, place)
                cuts += 1
    return f"{cuts} cuts"


def test_random_runs():
    r = random.Random(4)
    for kind, _ in itertools.product(KINDS, range(600)):
        theirs, parts = secrets.Hash(kind.sha384), []
        for _ in range(r.randrange(9)):
            parts.append(r.randbytes(r.choice((0, 1, 7, 55, 56, 63, 64, 65, 111, 112, 127, 128, 129, 256, r.randrange(600)))))
            assert theirs.absorb(parts[-1]) == 0
        assert kind.in_pieces(parts) == theirs.digest()


def test_one_value_for_one_message():
    """However a message is cut, the running hash is one struct: nothing of an earlier piece stays behind in its tail."""
    r = random.Random(6)
    for kind, _ in itertools.product(KINDS, range(400)):
        message = r.randbytes(r.randrange(6 * kind.block))
        whole = kind.absorb(kind.fresh(), message).hash
        h, at = kind.fresh(), 0
        while at < len(message):
            n = r.choice((1, 7, 63, 64, 65, 127, 128, 129, r.randrange(1, 3 * kind.block)))
            h, at = kind.absorb(h, message[at : at + n]).hash, at + n
        assert face.plain(h) == face.plain(whole)
        waiting = len(message) % kind.block
        assert bytes(h.tail) == message[len(message) - waiting :].ljust(kind.block, b"\x00")


def test_any_struct_value_ends():
    """A struct that no run of calls made: the number goes by the length, and a refusal changes nothing."""
    r = random.Random(5)
    seen = set()
    for kind, _ in itertools.product(KINDS, range(2000)):
        h = values.some(r, kind.struct)
        kind.digest(h)
        part = r.randbytes(r.randrange(3 * kind.block))
        answer = kind.absorb(h, part)
        assert answer.refusal.plain() == (TOO_LONG if h.length + len(part) > secrets.HASH_LIMIT else DONE)
        seen.add((kind.sha384, answer.refusal.number))
        if answer.refusal.number:
            assert face.plain(answer.hash) == face.plain(h)
        else:
            assert answer.hash.length == h.length + len(part)
    assert seen == {(False, 0), (False, 10), (True, 0), (True, 10)}
