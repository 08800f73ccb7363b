"""Keys of this machine, and what is signed by them as a JSON Web Signature (RFC 7515), by the
command `openssl`."""

import base64
import contextlib
import json
import os
import re
import subprocess
import tempfile
from pathlib import Path
from typing import NoReturn

from irr.errors import Failure
from irr.system import files

# The algorithms, and what makes a key for each (RFC 8037, RFC 7518).
MAKES = {
    "EdDSA": ("-algorithm", "ED25519"),
    "ES256": ("-algorithm", "EC", "-pkeyopt", "ec_paramgen_curve:P-256"),
}
# What a public key of each begins with, in DER.
KINDS = {
    bytes.fromhex("302a300506032b6570032100"): "EdDSA",
    bytes.fromhex("3059301306072a8648ce3d020106082a8648ce3d030107034200"): "ES256",
}
PUBLIC = re.compile(rb"-----BEGIN PUBLIC KEY-----[A-Za-z0-9+/=\s]+-----END PUBLIC KEY-----")
COMPACT = re.compile(rb"([A-Za-z0-9_-]+)\.([A-Za-z0-9_-]+)\.([A-Za-z0-9_-]+)\s*")
SECONDS = 60


class Keys:
    """The key in a folder that signs now, and the one that is announced as the next."""

    def __init__(self, folder: Path) -> None:
        self.folder = folder
        self.now, self.next = folder / "now.pem", folder / "next.pem"

    def make(self, algorithm: str) -> Path:
        """Makes a key: the one that signs where there is none, otherwise the next one."""
        path = self.next if self.now.exists() else self.now
        if path.exists():
            raise Failure(
                str(path),
                "there is a next key already; let it sign by --roll, or remove it to make another",
            )
        files.put_new(str(path), openssl("genpkey", *MAKES[algorithm]))
        return path

    def roll(self) -> None:
        """Lets the next key sign, and forgets the one before."""
        if not self.next.exists():
            raise Failure(str(self.next), "there is no next key; make one by --new")
        # From when on it signs.
        os.utime(self.next)
        os.replace(self.next, self.now)
        files.sync_folder(self.folder)

    def sign(self, payload: bytes) -> bytes:
        """The compact form of a text that is signed by the key of now."""
        algorithm = algorithm_of(self.now)
        head = base64url(json.dumps({"alg": algorithm}).encode())
        text = head + b"." + base64url(payload)
        # A text of EdDSA is signed at once, so its size has to be known: it can't be a pipe.
        with tempfile.NamedTemporaryFile(prefix="irr-") as file:
            file.write(text)
            file.flush()
            words = ["-inkey", str(self.now), *raw(algorithm, file.name)]
            made = openssl("pkeyutl", "-sign", *words)
        return text + b"." + base64url(made if algorithm == "EdDSA" else plain(made))


def public(path: Path) -> str:
    """The public key of a key, as PEM."""
    return openssl("pkey", "-pubout", "-in", str(path)).decode()


def algorithm_of(path: Path) -> str:
    """The algorithm for which a key is."""
    der = openssl("pkey", "-pubout", "-outform", "DER", "-in", str(path))
    return kind_of(der) or not_known(str(path))


def kind_of(der: bytes) -> str:
    """The algorithm of a public key; nothing where it is of none of these."""
    return next((name for begin, name in KINDS.items() if der.startswith(begin)), "")


def not_known(thing: str) -> NoReturn:
    raise Failure(thing, "it is a key neither of Ed25519 nor of P-256; make one by irr nrtm4")


def public_in(text: bytes, thing: str) -> str:
    """The public key that a text has, as PEM."""
    found = PUBLIC.search(text)
    if not found:
        raise Failure(thing, "it has no public key; give one in PEM, as irr nrtm4 prints it")
    key = found[0].decode() + "\n"
    return key if algorithm_in(key) else not_known(thing)


def algorithm_in(key: str) -> str:
    """The algorithm of a public key in PEM; nothing where it is of none of these."""
    with contextlib.suppress(ValueError):
        return kind_of(base64.b64decode("".join(key.split("-----")[2].split())))
    return ""


def verified(signed: bytes, key: str) -> bytes | None:
    """The text of a compact form, if it was signed by the key of a public one; None if it was
    not."""
    found = COMPACT.fullmatch(signed)
    if not found:
        return None
    try:
        head, payload, signature = json.loads(decoded(found[1])), *map(decoded, found.groups()[1:])
    except (ValueError, RecursionError):
        return None
    # What is critical has to be understood (RFC 7515, 4.1.11), and nothing is here.
    if not isinstance(head, dict) or head.get("alg") != algorithm_in(key) or "crit" in head:
        return None
    if head["alg"] == "ES256":
        if len(signature) != 64:
            return None
        signature = der_of(signature)
    with tempfile.TemporaryDirectory(prefix="irr-") as name:
        parts = {"key": key.encode(), "text": signed[: found.end(2)], "signature": signature}
        for part, text in parts.items():
            (Path(name) / part).write_bytes(text)
        words = ["-verify", "-pubin", "-inkey", f"{name}/key", "-sigfile", f"{name}/signature"]
        done = ran("pkeyutl", *words, *raw(head["alg"], f"{name}/text"))
    return None if done.returncode else payload


def raw(algorithm: str, path: str) -> list[str]:
    """How openssl takes a text that it is to sign, or that was signed."""
    return ["-rawin", *(["-digest", "sha256"] if algorithm == "ES256" else []), "-in", path]


def plain(signature: bytes) -> bytes:
    """A signature of P-256 as its two numbers side by side (RFC 7518, 3.4)."""
    numbers, place = [], 2
    for _ in range(2):
        size = signature[place + 1]
        numbers.append(int.from_bytes(signature[place + 2 : place + 2 + size]))
        place += 2 + size
    return b"".join(number.to_bytes(32) for number in numbers)


def der_of(signature: bytes) -> bytes:
    """Two numbers side by side as a signature of P-256."""
    parts = b""
    for number in int.from_bytes(signature[:32]), int.from_bytes(signature[32:]):
        # A bit before it says that it is not negative.
        text = number.to_bytes(number.bit_length() // 8 + 1)
        parts += bytes((2, len(text))) + text
    return bytes((0x30, len(parts))) + parts


def payload_of(signed: bytes) -> bytes:
    """The text of a compact form, whoever signed it."""
    return decoded(signed.split(b".")[1])


def decoded(text: bytes) -> bytes:
    return base64.urlsafe_b64decode(text + b"=" * (-len(text) % 4))


def base64url(text: bytes) -> bytes:
    return base64.urlsafe_b64encode(text).rstrip(b"=")


def openssl(*words: str) -> bytes:
    """What a command of openssl prints."""
    done = ran(*words)
    if done.returncode:
        reported = " ".join(done.stderr.decode("utf-8", "replace").split())
        raise Failure("openssl", f"openssl {words[0]}: {reported or f'status {done.returncode}'}")
    return done.stdout


def ran(*words: str) -> "subprocess.CompletedProcess[bytes]":
    """How a command of openssl ended."""
    try:
        return subprocess.run(
            ["openssl", *words],
            stdin=subprocess.DEVNULL,
            capture_output=True,
            check=False,
            timeout=SECONDS,
        )
    except FileNotFoundError:
        raise Failure("openssl", "it is not installed; install it") from None
    except subprocess.TimeoutExpired:
        raise Failure("openssl", f"openssl {words[0]} does not end") from None
