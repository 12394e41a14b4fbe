"""Document 01, 'Connection record', 'Server's decision', 'Client's decision'; order 2 of document 02, 'The resumed suite must be on
offer'. The place of a 1 or 2 (order 9) is the reading's."""

from dataclasses import dataclass

from .hello import EMS, RI, read_client_hello, read_server_hello


@dataclass(frozen=True)
class Connection:
    completed: bool = False
    indication: bool = False
    barred: bool = False
    client: bytes = bytes(12)
    server: bytes = bytes(12)


@dataclass(frozen=True)
class Switches:
    indication_required: bool = False
    legacy_full: bool = False
    legacy_resumption: bool = False


@dataclass(frozen=True)
class Decision:
    number: int
    place: int = 0  # of 1 and 2
    resumes: bool = False
    ems: bool = False
    indication: bool = False
    bar: bool = False
    bars_export: bool = False
    bars_verify_data: bool = False


def _outcome(flag, resumes, ems):
    legacy = not ems
    return Decision(
        0,
        resumes=resumes,
        ems=ems,
        indication=flag,
        bar=legacy and resumes,
        bars_export=legacy,
        bars_verify_data=legacy and resumes,
    )


def reply(record, decision):
    """The bytes after the compression method of our ServerHello."""
    body = b""
    if decision.indication:
        content = record.client + record.server if record.completed else b""
        body += RI.to_bytes(2, "big") + (len(content) + 1).to_bytes(2, "big") + bytes([len(content)]) + content
    if decision.ems:
        body += EMS.to_bytes(2, "big") + b"\x00\x00"
    return len(body).to_bytes(2, "big") + body if body else b""


def server(message, axle, find, record, switches, out):
    """(Decision, out afterwards, length of the reply). find(axle, identifier) answers None or the session's EMS and suite."""

    def refused(number, place=0):
        return Decision(number, place), out, 0

    if not 1 <= axle <= 6:
        return refused(11)
    number, place, hello = read_client_hello(message)
    if number:
        return refused(number, place)
    ri = hello.renegotiation_info
    if not record.completed:
        flag = hello.signal or ri is not None
        if ri is not None and ri != b"":
            return refused(5)
        if not flag and switches.indication_required:
            return refused(5)
    else:
        if record.barred or not record.indication:
            return refused(9)
        if hello.signal or ri is None or ri != record.client:
            return refused(5)
        flag = True
    known = find(axle, hello.identifier) if hello.identifier else None
    # "a known session whose suite isn't listed counts as none", before anything else is asked of it
    session = known[0] if known is not None and known[1] in hello.listed else None
    if session is None or (session is False and hello.ems):
        if hello.ems:
            made = _outcome(flag, False, True)
        elif switches.legacy_full:
            made = _outcome(flag, False, False)
        else:
            return refused(6)
    elif session is False:
        if not switches.legacy_resumption:
            return refused(6)
        made = _outcome(flag, True, False)
    else:
        if not hello.ems:
            return refused(6)
        made = _outcome(flag, True, True)
    written = reply(record, made)
    if len(out) < len(written):
        return refused(10)
    return made, written + out[len(written) :], len(written)


def client(message, offered, session, record, switches):
    """session: None, or (identifier, whether it has EMS, suite)."""
    if len(offered) > 32 or (offered and (session is None or session[0] != offered)):
        return Decision(11)
    number, place, hello = read_server_hello(message)
    if number:
        return Decision(number, place)
    if any(t not in (RI, EMS) for t, _ in hello.extensions):
        return Decision(4)
    ri = hello.renegotiation_info
    if not record.completed:
        if ri is None:
            if switches.indication_required:
                return Decision(5)
            flag = False
        elif ri:
            return Decision(5)
        else:
            flag = True
    else:
        if record.barred or not record.indication:
            return Decision(7)
        if ri != record.client + record.server:
            return Decision(5)
        flag = True
    if offered and hello.identifier == offered:
        if hello.listed != [session[2]]:
            return Decision(12)
        if hello.ems != session[1]:
            return Decision(6)
        if not hello.ems and not switches.legacy_resumption:
            return Decision(6)
        return _outcome(flag, True, hello.ems)
    if not hello.ems and not switches.legacy_full:
        return Decision(6)
    return _outcome(flag, False, hello.ems)
