"""HMAC and the master secrets with both hashes: RFC 4231, bounds of every length, whole lent buffers, random input against Python's
hmac and OpenSSL's PRF."""

import itertools
import random

from oracle import numbers, secrets
from tests import face
from tests.handshakes import SHA384_SUITES, full_and_resumed, openssl

# RFC 4231, section 4: key, data, HMAC-SHA-256, HMAC-SHA-384 (of case 5 the first 16 bytes of each). Those of SHA-384 are taken from the
# tests of Python's hmac, which have them from there; that of case 5, which those lack, is what Python's hmac and `openssl dgst` both give.
RFC_4231 = [
    (
        b"\x0b" * 20,
        b"Hi There",
        "b0344c61d8db38535ca8afceaf0bf12b881dc200c9833da726e9376c2e32cff7",
        "afd03944d84895626b0825f4ab46907f15f9dadbe4101ec682aa034c7cebc59cfaea9ea9076ede7f4af152e8b2fa9cb6",
    ),
    (
        b"Jefe",
        b"what do ya want for nothing?",
        "5bdcc146bf60754e6a042426089575c75a003f089d2739839dec58b964ec3843",
        "af45d2e376484031617f78d2b58a6b1b9c7ef464f5a01b47e42ec3736322445e8e2240ca5e69e2c78b3239ecfab21649",
    ),
    (
        b"\xaa" * 20,
        b"\xdd" * 50,
        "773ea91e36800e46854db8ebd09181a72959098b3ef8c122d9635514ced565fe",
        "88062608d3e6ad8a0aa2ace014c8a86f0aa635d947ac9febe83ef4e55966144b2a5ab39dc13814b94e3ab6e101a34f27",
    ),
    (
        bytes(range(1, 26)),
        b"\xcd" * 50,
        "82558a389a443c0ea4cc819899f2083a85f0faa3e578f8077a2e3ff46729665b",
        "3e8a69b7783c25851933ab6290af6ca77a9981480850009cc5577c6e1f573b4e6801dd23c4a7d679ccf8a386c674cffb",
    ),
    (b"\x0c" * 20, b"Test With Truncation", "a3b6167473100ee06e0c796c2955552b", "3abf34c3503b2a23a46efc619baef897"),
    (
        b"\xaa" * 131,
        b"Test Using Larger Than Block-Size Key - Hash Key First",
        "60e431591ee0b67f0d8a26aacbf5b77f8e0bc6213728c5140546040f0ee37f54",
        "4ece084485813e9088d2c63a041bc5b44f9ef1012a2b588f3cd11f05033ac4c60c2ef6ab4030fe8296248df163f44952",
    ),
    (
        b"\xaa" * 131,
        b"This is a test using a larger than block-size key and a larger than block-size data. "
        b"The key needs to be hashed before being used by the HMAC algorithm.",
        "9b09ffa71b942fcb27635fbcd5b0e944bfdc63644f0713938a7f51535c3a35e2",
        "6617178e941f020d351e2f254e8fd32c602420feb0b8fb9adccebb82461e99c5a678cc31e799176d3860e6110c46523e",
    ),
]

PATTERN = bytes((i * 37 + 11) % 256 for i in range(128))
BOTH = (False, True)
FLAGS = {False: (0,), True: (1, 2, 128, 255)}  # all but 0 is yes
EXTENDED = face.extended_master_secret, secrets.extended_master_secret
LEGACY = face.master_secret, secrets.master_secret


def right_seed(calls, sha384):
    """How many bytes the seed of these calls has."""
    return 64 if calls is LEGACY else 48 if sha384 else 32


def tagged(sha384, key, message):
    answer = (face.hmac_sha384 if sha384 else face.hmac)(key, message)
    return answer.refusal.plain(), bytes(answer.tag)


def agree(sha384, key, message):
    number, tag = secrets.hmac(sha384, key, message)
    assert tagged(sha384, key, message) == (numbers.refusal(number), tag), (sha384, len(key), len(message))


def derived(call, flag, pre_master, seed, out):
    lent = face.lend(out)
    return call(flag, pre_master, seed, lent).plain(), bytes(lent)


def test_rfc_4231():
    for key, data, *tags in RFC_4231:
        for sha384, tag in zip(BOTH, tags):
            expected = bytes.fromhex(tag)
            refused, got = tagged(sha384, key, data)
            assert refused == numbers.refusal(0) and got[: len(expected)] == expected
            assert secrets.hmac(sha384, key, data)[1][: len(expected)] == expected
            agree(sha384, key, data)


def test_lengths_of_key_and_message():
    r = random.Random(1)
    lengths = [0, 1, 31, 32, 47, 48, 55, 56, 63, 64, 65, 111, 112, 119, 120, 127, 128, 129, 131, 239, 240, 1000, 65_535, 65_536, 65_537, 70_000]
    for sha384, k, m in itertools.product(BOTH, lengths, lengths):
        agree(sha384, r.randbytes(k), r.randbytes(m))


# The test vectors of the TLS 1.2 PRF that went round the IETF's TLS list: secret, seed, output under the label "test label". That of
# SHA-384 is also what Python's hmac and OpenSSL's TLS1-PRF both give.
PRF = {
    False: (
        "9bbe436ba940f017b17652849a71db35",
        "a0ba9f936cda311827a6f796ffd5198c",
        "e3f229ba727be17b8d122620557cd453c2aab21d07c3d495329b52d4e61edb5a6b301791e90d35c9c9a46b4e14baf9af0fa022f7077def17"
        "abfd3797c0564bab4fbc91666e9def9b97fce34f796789baa48082d122ee42c5a72e5a5110fff70187347b66",
    ),
    True: (
        "b80b733d6ceefcdc71566ea48e5567df",
        "cd665cf6a8447dd6ff8b27555edb7465",
        "7b0c18e9ced410ed1804f2cfa34a336a1c14dffb4900bb5fd7942107e81c83cde9ca0faa60be9fe34f82b1233c9146a0e534cb400fed2700"
        "884f9dc236f80edd8bfa961144c9e8d792eca722a7b32fc3d416d473ebc2c5fd4abfdad05d9184259b5bf8cd4d90fa0d31e2dec479e4f1a2"
        "6066f2eea9a69236a3e52655c9e9aee691c8f3a26854308d5eaa3be85e0990703d73e56f",
    ),
}


def test_published_vectors_of_the_prf():
    """The library has no call for any label, so they test the second program, which the master secrets and the Finished values are
    compared with."""
    for sha384, row in PRF.items():
        secret, seed, expected = map(bytes.fromhex, row)
        assert secrets.prf(sha384, secret, b"test label", seed, len(expected)) == expected


def openssl_prf(sha384, secret, seed, length):
    """OpenSSL's TLS1-PRF; the seed has the label before it."""
    options = f"digest:SHA{384 if sha384 else 256}", f"hexsecret:{secret.hex()}", f"hexseed:{seed.hex()}"
    said = openssl("kdf", "-keylen", str(length), *(word for option in options for word in ("-kdfopt", option)), "TLS1-PRF")
    return bytes.fromhex(said.decode().replace(":", ""))


def test_openssl_s_prf():
    """Both master secrets, and the second program, against OpenSSL's own."""
    r = random.Random(5)
    for calls, label in ((EXTENDED, b"extended master secret"), (LEGACY, b"master secret")):
        ours, theirs = calls
        for sha384, p in itertools.product(BOTH, (1, 47, 48, 64, 65, 127, 128, 129, 200, 512)):
            pre_master, seed = r.randbytes(p), r.randbytes(right_seed(calls, sha384))
            right = openssl_prf(sha384, pre_master, label + seed, 48)
            assert theirs(sha384, pre_master, seed, bytes(48)) == (0, right)
            assert derived(ours, int(sha384), pre_master, seed, bytes(48)) == (numbers.refusal(0), right), (label, sha384, p)


def test_random_hmacs():
    r = random.Random(2)
    for sha384, _ in itertools.product(BOTH, range(1500)):
        agree(sha384, r.randbytes(r.randrange(300)), r.randbytes(r.randrange(300)))


def test_master_secrets_bounds_and_buffers():
    """By every flag; a seed of the other hash's length is 10 as any other is."""
    r, taken = random.Random(3), {}
    seeds = (0, 31, 32, 33, 47, 48, 49, 63, 64, 65, 80, 128)
    for calls, sha384 in itertools.product((EXTENDED, LEGACY), BOTH):
        ours, theirs = calls
        for p, s, n in itertools.product((0, 1, 47, 48, 64, 65, 128, 129, 511, 512, 513, 2000), seeds, (0, 47, 48, 49, 100)):
            pre_master, seed, out = r.randbytes(p), r.randbytes(s), PATTERN[:n]
            number, after = theirs(sha384, pre_master, seed, out)
            for flag in FLAGS[sha384]:
                assert derived(ours, flag, pre_master, seed, out) == (numbers.refusal(number), after), (flag, p, s, n)
            taken.setdefault((calls is EXTENDED, sha384), set()).update({s} if number == 0 else ())
    assert taken == {(True, False): {32}, (True, True): {48}, (False, False): {64}, (False, True): {64}}


def test_a_seed_of_the_other_hash():
    """10 with nothing written, with all else in its bounds, whatever byte the flag is."""
    for flag, s in itertools.product(range(256), range(100)):
        done = s == (48 if flag else 32)
        refused, out = derived(face.extended_master_secret, flag, b"p" * 48, bytes(s), PATTERN[:48])
        assert refused == numbers.refusal(0 if done else 10) and (out != PATTERN[:48]) == done, (flag, s)


def test_random_master_secrets():
    r = random.Random(4)
    for _ in range(400):
        pre_master = r.randbytes(r.randrange(1, 513))
        for calls, sha384 in itertools.product((EXTENDED, LEGACY), BOTH):
            ours, theirs = calls
            seed = r.randbytes(right_seed(calls, sha384))
            right = theirs(sha384, pre_master, seed, PATTERN[:60])[1]
            assert derived(ours, r.choice(FLAGS[sha384]), pre_master, seed, PATTERN[:60])[1] == right


def test_master_secrets_of_real_handshakes():
    """With and without the extension: what OpenSSL derived from the same pre-master secret and messages."""
    for ems, suite in itertools.product((True, False), ("NULL-SHA256", SHA384_SUITES[0])):
        real, _ = full_and_resumed(ems=ems, suite=suite)
        messages = [m for _, m in real.messages]
        if ems:
            last = [m[0] for m in messages].index(16)
            seed = secrets.digest(real.sha384, b"".join(messages[: last + 1]))
            got = derived(face.extended_master_secret, int(real.sha384), real.pre_master, seed, bytes(48))
        else:
            randoms = messages[0][6:38] + messages[1][6:38]
            got = derived(face.master_secret, int(real.sha384), real.pre_master, randoms, bytes(48))
        assert got == (numbers.refusal(0), real.master_secret)
