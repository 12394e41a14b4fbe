"""Document 01, 'Numbers answered', with 12 of order 2 of document 02, 'The resumed suite must be on offer', and the place of order 9,
'Tell us where the message broke'."""

NONE, WARNING, FATAL = 0, 1, 2

ALERTS = {
    1: (FATAL, 50),  # decode_error
    2: (FATAL, 47),  # illegal_parameter
    3: (FATAL, 70),  # protocol_version
    4: (FATAL, 110),  # unsupported_extension
    5: (FATAL, 40),  # handshake_failure
    6: (FATAL, 40),
    7: (FATAL, 10),  # unexpected_message
    8: (FATAL, 51),  # decrypt_error
    9: (WARNING, 100),  # no_renegotiation
    12: (FATAL, 47),  # illegal_parameter
}

PLACED = (1, 2)  # the numbers that have a place where they come from a message; all else has place 0


def refusal(number, place=0):
    """(number, level, code, place); a number that the table does not have sends no alert."""
    return (number, *ALERTS.get(number, (NONE, 0)), place)
