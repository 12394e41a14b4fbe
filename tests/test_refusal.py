"""Document 01, 'Numbers answered', and 12 of order 2: every number that a byte can hold, with its alert and no place."""

from oracle import numbers
from tests import face


def test_every_number():
    for n in range(256):
        assert face.refusal(n).plain() == numbers.refusal(n), n


def test_12_and_above():
    assert face.refusal(12).plain() == (12, 2, 47, 0)  # fatal illegal_parameter
    for n in range(13, 256):
        assert face.refusal(n).plain() == (n, 0, 0, 0)
