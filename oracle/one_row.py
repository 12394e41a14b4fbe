"""The layout of the session table before order 3 of document 02, by places: crates/sessions/specs/OneRow.antt once more, line by
line and with its names.

One row of 32 places and how many of them are taken: a session is found, counted, struck out and written by its place. It is not
the plain book, from which it takes nothing. A session is (axle, identifier, ems, suite, secret), of which only the suite is younger
than the layout (order 2); a call is its name and its arguments.
"""

from typing import NamedTuple

PLACES = 32
BLANK = (0, b"", False, 0, bytes(48))


class OneRow(NamedTuple):
    places: list  # the first `len` are taken, the oldest session in place 0
    len: int


def fresh_row():
    """The row of an empty table: every place blank, none taken."""
    return OneRow([BLANK] * PLACES, 0)


def in_place(r, k):
    return _get(r.places, k)


def _get(places, k):
    return places[k] if k < len(places) else BLANK


def _set(places, k, s):
    return [*places[:k], s, *places[k + 1 :]] if k < len(places) else places


# ---- a single session


def is_of(a):
    return lambda s: s[0] == a


def is_named(a, i):
    return lambda s: s[0] == a and s[1] == i


# ---- going through the places


def seek(p, r, n, k):
    """Of n places from k on, the first whose session meets the test; where none does, the place behind them."""
    for at in range(k, k + n):
        if p(in_place(r, at)):
            return at
    return k + n


def find(p, r):
    """The place of the oldest session that meets the test, or `len`."""
    return seek(p, r, r.len, 0)


def tally(p, r, n, k):
    """Of n places from k on, how many hold a session that meets the test."""
    return sum(p(in_place(r, at)) for at in range(k, k + n))


def count(p, r):
    """How many sessions of the row meet the test."""
    return tally(p, r, r.len, 0)


def found_in(a, i, r):
    """The session of that axle and identifier, read from the place where the search stops; None where that place is not taken."""
    k = find(is_named(a, i), r)
    return in_place(r, k) if k < r.len else None


# ---- changing the places


def moved_up(n, k, places):
    """Place k gets what stands in the next one, then that one likewise, n times."""
    for at in range(k, k + n):
        places = _set(places, at, _get(places, at + 1))
    return places


def without(k, r):
    """Without the session in place k, if that place is taken: those behind it move up, and the last taken place is blanked."""
    if k < r.len:
        return OneRow(_set(moved_up(r.len - (k + 1), k, r.places), r.len - 1, BLANK), r.len - 1)
    return r


def with_last(s, r):
    """With a new session, written behind the last."""
    return OneRow(_set(r.places, r.len, s), r.len + 1)


# ---- store


def fuller_in(r, a, c):
    """Of two axles the one that is counted more often in the row, the first at a tie."""
    return c if count(is_of(a), r) < count(is_of(c), r) else a


def fullest_in(r):
    """The axle with most sessions, the lowest number at a tie."""
    return fuller_in(r, fuller_in(r, fuller_in(r, fuller_in(r, fuller_in(r, 1, 2), 3), 4), 5), 6)


def victim(a, i, r):
    """The place of the session that a store strikes out: the one of that name; else the axle's oldest, if it holds 8; else none, and
    that is `len`, if a place is free; else the axle's oldest, if it holds 4 or more; else the oldest of the axle with most."""
    k = find(is_named(a, i), r)
    n = count(is_of(a), r)
    if k < r.len:
        return k
    if n == 8:
        return find(is_of(a), r)
    if r.len < PLACES:
        return r.len
    if 4 <= n:
        return find(is_of(a), r)
    return find(is_of(fullest_in(r)), r)


# ---- numbers


def bad_axle(a):
    return not 1 <= a <= 6


def bad_name(a, i):
    return bad_axle(a) or not 1 <= len(i) <= 32


def too_short(out, found):
    return found is not None and len(out) < len(found[4])


def first_of(*tests):
    """The number of the first test that is met, or 0."""
    return next((number for number, met in tests if met), 0)


def store_number(s):
    return first_of((11, bad_name(s[0], s[1])), (10, len(s[4]) != 48))


def withdraw_number(a, i):
    return first_of((11, bad_name(a, i)))


def held_number(a):
    return first_of((11, bad_axle(a)))


# ---- the calls


def granted(n, x, refused):
    return x if n == 0 else refused


def handed(out, found):
    """What the lent output holds afterwards."""
    return out if found is None else found[4] + out[len(found[4]) :]


def answer_in(r, call):
    """What a call is answered where the row is r."""
    match call:
        case "store", s:
            return store_number(s)
        case "look_up", a, i, out:
            found = found_in(a, i, r)
            n = first_of((11, bad_name(a, i)), (10, too_short(out, found)))
            return n, granted(n, found, None), granted(n, handed(out, found), out)
        case "withdraw", a, i:
            n = withdraw_number(a, i)
            return n, granted(n, found_in(a, i, r) is not None, False)
        case "held", a:
            n = held_number(a)
            return n, granted(n, count(is_of(a), r), 0)
        case ("clear",):
            return 0


def after_in(r, call):
    """The row after it: a refused call leaves it as it was, and a clearing is a fresh row."""
    match call:
        case "store", s:
            return granted(store_number(s), with_last(s, without(victim(s[0], s[1], r), r)), r)
        case "withdraw", a, i:
            return granted(withdraw_number(a, i), without(find(is_named(a, i), r), r), r)
        case ("clear",):
            return fresh_row()
    return r


def answers_in(r, calls):
    """The old layout's answers to a list of calls, one after the other."""
    answers = []
    for call in calls:
        answers.append(answer_in(r, call))
        r = after_in(r, call)
    return answers
