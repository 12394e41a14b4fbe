"""Real TLS 1.2 handshakes, made by OpenSSL in this process over memory buffers.

The suite is TLS_RSA_WITH_NULL_SHA256 unless told otherwise, so that the Finished messages stand in clear text on the wire, and the RSA
key is the test's own, so that the pre-master secret can be taken out of the ClientKeyExchange. Python can set up no such suite with
SHA-384: with those below a Finished is taken out of its record, by the keys that both ends make from the master secret.
"""

import base64
import pathlib
import shutil
import ssl
import subprocess
import tempfile
from dataclasses import dataclass

from oracle.secrets import prf
from tests import Missing

DATA = pathlib.Path(__file__).resolve().parent / "data"
CERTIFICATE, KEY = str(DATA / "test-only.crt"), str(DATA / "test-only.key")
NO_EXTENDED_MASTER_SECRET = 1  # OpenSSL's SSL_OP_NO_EXTENDED_MASTER_SECRET
NO_ENCRYPT_THEN_MAC = 1 << 19  # and its SSL_OP_NO_ENCRYPT_THEN_MAC
SUITE = 0x003B  # of NULL-SHA256
MAC = 32  # bytes of HMAC-SHA256 behind each record once the cipher is on
# with SHA-384, by OpenSSL's names: the pre-master secret under the RSA key, and by a key exchange of its own
SHA384_SUITES = ("AES256-GCM-SHA384", "ECDHE-RSA-AES256-GCM-SHA384")
NONCE, TAG = 8, 16  # bytes before and behind what is sealed in a record of these (RFC 5288, section 3)


@dataclass
class Handshake:
    messages: list  # (from the client?, message with its header), in order
    master_secret: bytes  # as OpenSSL wrote it down
    pre_master: bytes  # None in a resumed one, and where it is not under the RSA key
    resumed: bool
    ems: bool
    sha384: bool


def _contexts(client_certificate, ems, keylog, suite="NULL-SHA256"):
    server = ssl.SSLContext(ssl.PROTOCOL_TLS_SERVER)
    client = ssl.SSLContext(ssl.PROTOCOL_TLS_CLIENT)
    client.check_hostname = False
    client.verify_mode = ssl.CERT_NONE
    server.load_cert_chain(CERTIFICATE, KEY)
    for context in (server, client):
        context.minimum_version = context.maximum_version = ssl.TLSVersion.TLSv1_2
        context.set_ciphers(f"{suite}:@SECLEVEL=0")
        context.options |= ssl.OP_NO_TICKET
        if not ems:
            context.options |= NO_EXTENDED_MASTER_SECRET
    if client_certificate:
        client.load_cert_chain(CERTIFICATE, KEY)
        server.load_verify_locations(CERTIFICATE)
        server.verify_mode = ssl.CERT_REQUIRED
    client.keylog_filename = keylog
    return client, server


class _Sealed(bytes):
    """A handshake record behind a ChangeCipherSpec, as it stands on the wire: it has a Finished, and nothing else."""


class _Side:
    """Collects the handshake messages of what one side sends."""

    def __init__(self):
        self.pending, self.stream, self.protected, self.out = b"", b"", False, []

    def feed(self, data):
        self.pending += data
        while len(self.pending) >= 5:
            kind, n = self.pending[0], int.from_bytes(self.pending[3:5], "big")
            if len(self.pending) < 5 + n:
                return
            body, self.pending = self.pending[5 : 5 + n], self.pending[5 + n :]
            if kind == 20:
                self.protected = True
            elif kind == 22 and self.protected:
                self.out.append(_Sealed(body))
            elif kind == 22:
                self.stream += body
            while len(self.stream) >= 4 and len(self.stream) >= 4 + int.from_bytes(self.stream[1:4], "big"):
                m = 4 + int.from_bytes(self.stream[1:4], "big")
                self.out.append(self.stream[:m])
                self.stream = self.stream[m:]


def _run(client, server, session=None):
    c_in, c_out, s_in, s_out = (ssl.MemoryBIO() for _ in range(4))
    c = client.wrap_bio(c_in, c_out, session=session)
    s = server.wrap_bio(s_in, s_out, server_side=True)
    sides = {True: _Side(), False: _Side()}
    messages, open_ = [], [c, s]
    while open_:
        for end in list(open_):
            try:
                end.do_handshake()
                open_.remove(end)
            except ssl.SSLWantReadError:
                pass
            for from_client, out, inn in ((True, c_out, s_in), (False, s_out, c_in)):
                data = out.read()
                if data:
                    inn.write(data)
                    sides[from_client].feed(data)
                    messages += [(from_client, m) for m in sides[from_client].out]
                    sides[from_client].out = []
    return c, s, messages


def _der_numbers(der):
    """The INTEGERs of a flat DER SEQUENCE."""

    def item(d):
        n, head = d[1], 2
        if n & 0x80:
            k = n & 0x7F
            n, head = int.from_bytes(d[2 : 2 + k], "big"), 2 + k
        return d[0], d[head : head + n], d[head + n :]

    _, body, _ = item(der)
    found = []
    while body:
        tag, value, body = item(body)
        if tag == 2:
            found.append(int.from_bytes(value, "big"))
        elif tag == 4:
            found += _der_numbers(value)  # PKCS #8 wraps the RSA key in an OCTET STRING
    return found


def _pre_master(client_key_exchange):
    """RFC 5246, section 7.4.7.1: the 48 bytes that the client encrypted under the server's RSA key."""
    pem = "".join(line for line in open(KEY) if "-----" not in line)
    numbers = _der_numbers(base64.b64decode(pem))
    modulus, private = numbers[2], numbers[4]  # after PKCS #8's and PKCS #1's versions
    sealed = int.from_bytes(client_key_exchange[6:], "big")
    return pow(sealed, private, modulus).to_bytes(256, "big")[-48:]


def openssl(*words, data=b""):
    """What the command `openssl` writes."""
    if not shutil.which("openssl"):
        raise Missing("the command openssl is not installed, or not on the PATH: the tests of SHA-384 want it")
    return subprocess.run(["openssl", *words], input=data, capture_output=True, check=True).stdout


def _opened(record, from_client, master, hellos):
    """What a record of AES-256-GCM seals: RFC 5246, section 6.3, makes the keys; a block's counter stands behind salt and nonce, and is
    2 at the first. The tag is not looked at: OpenSSL's other end has done so."""
    randoms = [hello[6:38] for hello in hellos]
    keys = prf(True, master, b"key expansion", randoms[1] + randoms[0], 72)
    key, salt = (keys[:32], keys[64:68]) if from_client else (keys[32:64], keys[68:])
    counter = salt + record[:NONCE] + (2).to_bytes(4, "big")
    return openssl("enc", "-d", "-aes-256-ctr", "-K", key.hex(), "-iv", counter.hex(), data=record[NONCE:-TAG])


def _handshake(messages, keylog, at, resumed, ems, suite):
    lines = [line.split() for line in open(keylog) if line.startswith("CLIENT_RANDOM")]
    master, sha384 = bytes.fromhex(lines[at][2]), suite in SHA384_SUITES
    hellos = [m for _, m in messages[:2]]

    def clear(from_client, m):
        if not isinstance(m, _Sealed):
            return m
        return _opened(m, from_client, master, hellos) if sha384 else m[:-MAC]

    messages = [(from_client, clear(from_client, m)) for from_client, m in messages]
    exchange = [] if suite.startswith("ECDHE") else [m for _, m in messages if m[0] == 16]
    return Handshake(messages, master, _pre_master(exchange[0]) if exchange else None, resumed, ems, sha384)


def full_and_resumed(client_certificate=False, ems=True, suite="NULL-SHA256"):
    """A full handshake and one that resumes its session."""
    with tempfile.NamedTemporaryFile() as keylog:
        client, server = _contexts(client_certificate, ems, keylog.name, suite)
        c, _kept, messages = _run(client, server)  # OpenSSL forgets the session of a server end that is freed
        first = _handshake(messages, keylog.name, 0, False, ems, suite)
        again, _, messages = _run(client, server, c.session)
        assert again.session_reused
        return first, _handshake(messages, keylog.name, 1, True, ems, suite)


# ---- A session whose suite is another one the second time


def _sent(end, out):
    """What an end sends when it goes on: an alert where it refuses."""
    try:
        end.do_handshake()
    except ssl.SSLError:  # to want more bytes is one of them
        pass
    return out.read()


def offered_with(*lists):
    """A full handshake; and for each list of OpenSSL's names the ClientHello of the same client, once these are its suites, with the
    session of that handshake in it. OpenSSL's client offers its session whatever suites it lists beside it."""
    with tempfile.NamedTemporaryFile() as keylog:
        client, server = _contexts(False, True, keylog.name)
        c, _kept, messages = _run(client, server)
        full, hellos = _handshake(messages, keylog.name, 0, False, True, "NULL-SHA256"), []
        for names in lists:
            client.set_ciphers(f"{names}:@SECLEVEL=0")
            side, out = _Side(), ssl.MemoryBIO()
            side.feed(_sent(client.wrap_bio(ssl.MemoryBIO(), out, session=c.session), out))
            hellos += side.out
        return full, hellos


def resumed_with(suite):
    """A resumption between OpenSSL's ends whose ServerHello comes to the client with this suite in it: the identifier offered, that
    ServerHello, and the alert that the client answers, level and code; None where it sends none. The client lists AES128-SHA256,
    00 3c, besides the session's suite, and no extension that ours does not offer."""
    with tempfile.NamedTemporaryFile() as keylog:
        client, server = _contexts(False, True, keylog.name)
        client.set_ciphers("NULL-SHA256:AES128-SHA256:@SECLEVEL=0")
        client.options |= NO_ENCRYPT_THEN_MAC
        c, _kept, _ = _run(client, server)
        c_in, c_out, s_in, s_out = (ssl.MemoryBIO() for _ in range(4))
        again = client.wrap_bio(c_in, c_out, session=c.session)
        s_in.write(_sent(again, c_out))
        flight = _sent(server.wrap_bio(s_in, s_out, server_side=True), s_out)
        at = 5 + 4 + 2 + 32  # of the identifier's length: behind the headers of record and message, version and random
        at += 1 + flight[at]
        flight = flight[:at] + suite.to_bytes(2, "big") + flight[at + 2 :]
        side = _Side()
        side.feed(flight)
        c_in.write(flight)
        said = _sent(again, c_out)
        return c.session.id, side.out[0], (said[5], said[6]) if said[:1] == b"\x15" else None
