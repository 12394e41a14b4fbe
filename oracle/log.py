"""Document 01, 'The message log'; document 02, order 4, 'Feed a message by allowance', order 6, 'Join the Finished check and the
taking', order 7, 'SHA-384 suites', and order 9, 'Tell us where the message broke'."""

import re
from typing import NamedTuple

from .decision import Connection
from .hello import MESSAGE_LIMIT, Malformed, Reader, header
from .secrets import block, digest, verify_data

# One letter a message; a Finished is C (client's) or S (server's). `?` marks what may be left out.
LETTER = {1: "a", 2: "b", 11: "c", 12: "k", 13: "r", 14: "d", 15: "v", 16: "x"}
FULL = ["abc?k?dxCS", "abc?k?rdcxv?CS"]  # without and with a CertificateRequest
RESUMED = ["abSC"]

ALLOWANCES = range(1, 257)  # blocks that a part may be allowed
NO_BLOCKS = (0, 0)  # SHA-256's, then SHA-384's


class Told(NamedTuple):
    """With a ServerHello: does it resume, and is SHA-384 the hash of its suite?"""

    resumes: bool = False
    sha384: bool = False


def _beginnings(order):
    """A regular expression for every beginning of the order."""
    expression = ""
    for step in reversed(re.findall(r"\w\??", order)):
        expression = f"(?:{step}{expression})?"
    return re.compile(expression + r"\Z")


BEGINS = {False: [_beginnings(p) for p in FULL], True: [_beginnings(p) for p in RESUMED]}


def in_order(word, resumed):
    return any(p.match(word) for p in BEGINS[resumed])


class Log:
    def __init__(self):
        self.word = ""  # accepted messages but type 0
        self.hashed = b""
        self.resumed = False
        self.sha384 = None  # the hash of the suite, which a ServerHello that is whole chooses: is it SHA-384?
        self.session = None
        self.values = {}
        self.begun = None  # of a message between its parts: the bytes taken, how many it has in all, and what was told

    def _due(self):
        """'C', 'S' or None: whose Finished is due."""
        if self.begun:
            return None
        for side in "CS":
            if "b" in self.word and in_order(self.word + side, self.resumed):
                return side
        return None

    @staticmethod
    def _fault(message):
        """(number, place) of bytes that are no message, whatever its turn; else None."""
        if len(message) > MESSAGE_LIMIT:
            return 10, 0
        reader = Reader(message)
        try:
            kind = header(reader)
        except Malformed as broken:
            return 1, broken.place
        if (kind == 0 and reader.left) or (kind == 20 and reader.left != 12):
            return 1, 1  # "a Finished or type 0 body of wrong length gives 1, the place of the length"
        return None

    def _judged(self, message):
        """(number, place) of a whole message, before any of it is taken."""
        fault = self._fault(message)
        if fault:
            return fault
        if self.begun:
            return 7, 0  # "7 for another log call between parts", type 0 too
        letter = LETTER.get(message[0])  # a Finished has none: it is for `finish`
        if message[0] != 0 and (letter is None or not in_order(self.word + letter, self.resumed)):
            return 7, 0
        return 0, 0

    def _accept(self, message, told):
        """A message that was judged and is whole."""
        kind = message[0]
        if kind == 0:
            return
        if kind == 2:
            self.resumed, self.sha384 = told
        self._take(LETTER[kind], message)
        if kind == 16:
            self.session = self._digest()

    def accept(self, message, told=Told()):
        """(number, place)"""
        number, place = self._judged(message)
        if not number:
            self._accept(message, told)
        return number, place

    def _carries(self, sha384):
        """ "until that is taken whole the log carries both" """
        return self.sha384 in (None, sha384)

    def feed(self, rest, allowance, told=Told()):
        """(number, place, bytes taken, blocks worked of each hash)"""
        if allowance not in ALLOWANCES:
            return 10, 0, 0, NO_BLOCKS
        if not self.begun:  # "judged before the first byte is taken"
            number, place = self._judged(rest)
            if number:
                return number, place, 0, NO_BLOCKS
            if rest[0] == 0:
                return 0, 0, len(rest), NO_BLOCKS  # "Type 0 takes no blocks"
        got, whole, told = self.begun or (b"", len(rest), told)
        if len(rest) != whole - len(got):
            return 10, 0, 0, NO_BLOCKS
        before = len(self.hashed) + len(got)
        # "the smaller of what is left and 64(k+1)-1-h bytes", "for each carried hash with its own block"
        rooms = (block(h) * (allowance + 1) - 1 - before % block(h) for h in (False, True) if self._carries(h))
        taken = min(len(rest), *rooms)
        # "both block numbers are reported, 0 for a hash not carried"
        blocks = tuple(((before + taken) // block(h) - before // block(h)) * self._carries(h) for h in (False, True))
        got += rest[:taken]
        self.begun = (got, whole, told)
        if len(got) == whole:
            self.begun = None
            self._accept(got, told)
        return 0, 0, taken, blocks

    def _take(self, letter, message):
        self.word += letter
        self.hashed += message

    def session_hash(self):
        """(number, hash), of 32 or 48 bytes; none where refused"""
        return (7, b"") if self.session is None or self.begun else (0, self.session)

    def _digest(self):
        return digest(self.sha384, self.hashed)

    def _value(self, secret, side):
        return verify_data(self.sha384, secret, side == "S", self._digest())

    def expected_finished(self, secret):
        """(number, value)"""
        if len(secret) != 48:
            return 10, bytes(12)
        side = self._due()
        if side is None:
            return 7, bytes(12)
        return 0, self._value(secret, side)

    def finish(self, secret, message):
        """(number, place)"""
        if len(secret) != 48:
            return 10, 0
        fault = self._fault(message)
        if fault:
            return fault
        side = self._due()
        if message[0] != 20 or side is None:
            return 7, 0
        if message[4:] != self._value(secret, side):
            return 8, 0
        self.values[side] = message[4:]
        self._take(side, message)
        return 0, 0

    @property
    def complete(self):
        return set(self.values) == {"C", "S"}


def complete(record, log, decision):
    """(number, record afterwards)"""
    if not log.complete or decision.number or log.resumed != decision.resumes:
        return 7, record
    return 0, Connection(True, decision.indication, decision.bar, log.values["C"], log.values["S"])
