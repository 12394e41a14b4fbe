"""Document 01, 'Secrets', and order 7 of document 02, 'SHA-384 suites': FIPS 180-4, RFC 2104, RFC 5246 section 5, RFC 7627 section 4.

Which of the two hashes it is stands in front: a flag, yes for SHA-384."""

import hashlib
import hmac as _hmac

HASH_LIMIT = 1_048_576
HMAC_LIMIT = 65_536
HASHES = {False: hashlib.sha256, True: hashlib.sha384}


def block(sha384):
    """Its block in bytes."""
    return HASHES[sha384]().block_size


def width(sha384):
    """How many bytes its digest has."""
    return HASHES[sha384]().digest_size


def digest(sha384, message):
    return HASHES[sha384](message).digest()


class Hash:
    """A running hash. A feed that would pass the limit takes nothing."""

    def __init__(self, sha384):
        self.sha384, self.taken = sha384, b""

    def absorb(self, data):
        if len(self.taken) + len(data) > HASH_LIMIT:
            return 10
        self.taken += data
        return 0

    def digest(self):
        return digest(self.sha384, self.taken)


def one_shot(sha384, message):
    """(number, digest)"""
    if len(message) > HASH_LIMIT:
        return 10, bytes(width(sha384))
    return 0, digest(sha384, message)


def mac(sha384, key, message):
    return _hmac.new(key, message, HASHES[sha384]).digest()


def hmac(sha384, key, message):
    """(number, tag)"""
    if len(key) > HMAC_LIMIT or len(message) > HMAC_LIMIT:
        return 10, bytes(width(sha384))
    return 0, mac(sha384, key, message)


def prf(sha384, secret, label, seed, length):
    """RFC 5246, section 5: P_hash(secret, label + seed), cut to length."""
    seed = label + seed
    a = seed
    out = b""
    while len(out) < length:
        a = mac(sha384, secret, a)
        out += mac(sha384, secret, a + seed)
    return out[:length]


def _derive(sha384, label, seed_length, pre_master, seed, out):
    """(number, out afterwards)"""
    if not 1 <= len(pre_master) <= 512 or len(seed) != seed_length or len(out) < 48:
        return 10, out
    return 0, prf(sha384, pre_master, label, seed, 48) + out[48:]


def extended_master_secret(sha384, pre_master, session_hash, out):
    """ "The extended seed is 32 or 48 bytes by hash." """
    return _derive(sha384, b"extended master secret", width(sha384), pre_master, session_hash, out)


def master_secret(sha384, pre_master, randoms, out):
    return _derive(sha384, b"master secret", 64, pre_master, randoms, out)


def verify_data(sha384, secret, server, log_hash):
    return prf(sha384, secret, b"server finished" if server else b"client finished", log_hash, 12)
