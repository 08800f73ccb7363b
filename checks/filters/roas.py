"""A small RPKI tree (RFC 6480), made by openssl and validated by rpki-client without a network: one
trust anchor, and ROAs below it."""

import base64
import hashlib
import ipaddress
import os
import shutil
import subprocess
import time

from checks.running import expect, run

# The prefixes of a ROA, with the longest that each allows.
Entries = list[tuple[str, int | None]]
PROGRAM = shutil.which("rpki-client", path=os.environ["PATH"] + ":/usr/sbin")
USER = "_rpki-client"
PLACE = "rpki.example.net/repo"
# The content types of a manifest and of a ROA, and the OID of SHA-256.
MANIFEST, ROA = "1.2.840.113549.1.9.16.1.26", "1.2.840.113549.1.9.16.1.24"
SHA256 = bytes.fromhex("0609608648016503040201")
COMMON = """subjectKeyIdentifier = hash
authorityKeyIdentifier = keyid:always
certificatePolicies = critical, 1.3.6.1.5.5.7.14.2
"""
CONFIG = f"""[req]
distinguished_name = name
[name]
[ca]
default_ca = own
[own]
database = index
crlnumber = crlnumber
default_md = sha256
default_crl_days = 2
crl_extensions = crl
[crl]
authorityKeyIdentifier = keyid:always
[anchor]
basicConstraints = critical, CA:true
keyUsage = critical, keyCertSign, cRLSign
subjectInfoAccess = 1.3.6.1.5.5.7.48.5;URI:rsync://{PLACE}/, \\
    1.3.6.1.5.5.7.48.10;URI:rsync://{PLACE}/ta.mft
sbgp-ipAddrBlock = critical, IPv4:0.0.0.0/0, IPv6:::/0
sbgp-autonomousSysNum = critical, AS:0-4294967295
{COMMON}"""
SIGNER = """keyUsage = critical, digitalSignature
crlDistributionPoints = URI:rsync://{place}/ta.crl
authorityInfoAccess = caIssuers;URI:rsync://rpki.example.net/ta/ta.cer
subjectInfoAccess = 1.3.6.1.5.5.7.48.11;URI:rsync://{place}/{name}
sbgp-ipAddrBlock = critical, {addresses}
{more}"""


def der(tag: int, *parts: bytes) -> bytes:
    """A value in DER."""
    body = b"".join(parts)
    size = len(body)
    if size < 128:
        return bytes([tag, size]) + body
    length = size.to_bytes((size.bit_length() + 7) // 8, "big")
    return bytes([tag, 128 | len(length)]) + length + body


def integer(number: int) -> bytes:
    return der(2, number.to_bytes(number.bit_length() // 8 + 1, "big"))


def sequence(*parts: bytes) -> bytes:
    return der(0x30, *parts)


def prefix_text(text: str) -> bytes:
    """The bits of a prefix."""
    network = ipaddress.ip_network(text)
    used = (network.prefixlen + 7) // 8
    return der(3, bytes([8 * used - network.prefixlen]), network.network_address.packed[:used])


def roa_text(number: int, entries: Entries) -> bytes:
    """The content of a ROA (RFC 6482, 3), of prefixes of one family with their greatest lengths, or
    none."""
    family = ipaddress.ip_network(entries[0][0]).version
    listed = [
        sequence(prefix_text(prefix), integer(most) if most is not None else b"")
        for prefix, most in entries
    ]
    return sequence(
        integer(number),
        sequence(sequence(der(4, b"\0\1" if family == 4 else b"\0\2"), sequence(*listed))),
    )


def manifest_text(files: dict[str, bytes]) -> bytes:
    """The content of a manifest (RFC 6486, 4.2)."""
    times = [
        der(24, time.strftime("%Y%m%d%H%M%SZ", time.gmtime(time.time() + seconds)).encode())
        for seconds in (-3_600, 86_400)
    ]
    listed = [
        sequence(der(22, name.encode()), der(3, b"\0", hashlib.sha256(text).digest()))
        for name, text in sorted(files.items())
    ]
    return sequence(integer(1), *times, SHA256, sequence(*listed))


class Tree:
    """The tree in a folder. `roas` are an AS number and its entries each."""

    def __init__(self, folder: str, roas: list[tuple[int, Entries]]) -> None:
        self.folder = folder
        self.repository = os.path.join(folder, "cache", PLACE)
        for path in (
            self.repository,
            os.path.join(folder, "cache/ta/example"),
            os.path.join(folder, "out"),
        ):
            os.makedirs(path)
        self.write("config", CONFIG.encode())
        self.write("index", b"")
        self.write("crlnumber", b"01\n")
        self.openssl(
            "req",
            "-new",
            "-x509",
            "-newkey",
            "rsa:2048",
            "-nodes",
            "-keyout",
            "ta.key",
            "-config",
            "config",
            "-extensions",
            "anchor",
            "-subj",
            "/CN=anchor",
            "-days",
            "2",
            "-outform",
            "DER",
            "-out",
            "cache/ta/example/ta.cer",
        )
        self.openssl("x509", "-inform", "DER", "-in", "cache/ta/example/ta.cer", "-out", "ta.pem")
        key = self.openssl("rsa", "-in", "ta.key", "-pubout", "-outform", "DER")
        self.write(
            "example.tal", b"rsync://rpki.example.net/ta/ta.cer\n\n" + base64.encodebytes(key)
        )
        self.openssl(
            "ca",
            "-gencrl",
            "-config",
            "config",
            "-keyfile",
            "ta.key",
            "-cert",
            "ta.pem",
            "-out",
            "crl.pem",
        )
        files = {"ta.crl": self.openssl("crl", "-in", "crl.pem", "-outform", "DER")}
        for place, (number, entries) in enumerate(roas):
            addresses = ", ".join(
                f"IPv{ipaddress.ip_network(prefix).version}:{prefix}" for prefix, _ in entries
            )
            files[f"{place}.roa"] = self.signed(
                f"{place}.roa", ROA, roa_text(number, entries), addresses, place + 2
            )
        files["ta.mft"] = self.signed(
            "ta.mft",
            MANIFEST,
            manifest_text(files),
            "IPv4:inherit, IPv6:inherit",
            1_000,
            "sbgp-autonomousSysNum = critical, AS:inherit\n",
        )
        for name, text in files.items():
            self.write(os.path.join(self.repository, name), text)

    def write(self, name: str, text: bytes) -> None:
        with open(os.path.join(self.folder, name), "wb") as out:
            out.write(text)

    def openssl(self, *words: str) -> bytes:
        return subprocess.run(
            ["openssl", *words],
            cwd=self.folder,
            check=True,
            stdin=subprocess.DEVNULL,
            capture_output=True,
        ).stdout

    def signed(
        self, name: str, kind: str, content: bytes, addresses: str, serial: int, more: str = ""
    ) -> bytes:
        """A signed object (RFC 6488), with a certificate for it alone."""
        self.write("content", content)
        self.write(
            "extensions",
            (
                SIGNER.format(place=PLACE, name=name, addresses=addresses, more=more) + COMMON
            ).encode(),
        )
        self.openssl(
            "req",
            "-new",
            "-newkey",
            "rsa:2048",
            "-nodes",
            "-keyout",
            "one.key",
            "-config",
            "config",
            "-subj",
            f"/CN=signer{serial}",
            "-out",
            "one.req",
        )
        self.openssl(
            "x509",
            "-req",
            "-in",
            "one.req",
            "-CA",
            "ta.pem",
            "-CAkey",
            "ta.key",
            "-set_serial",
            str(serial),
            "-days",
            "2",
            "-sha256",
            "-extfile",
            "extensions",
            "-out",
            "one.pem",
        )
        return self.openssl(
            "cms",
            "-sign",
            "-binary",
            "-nodetach",
            "-in",
            "content",
            "-signer",
            "one.pem",
            "-inkey",
            "one.key",
            "-keyid",
            "-econtent_type",
            kind,
            "-nosmimecap",
            "-md",
            "sha256",
            "-outform",
            "DER",
        )

    def validated(self) -> str:
        """The path of the JSON that rpki-client makes of it."""
        if os.geteuid() == 0:
            # It goes on as this user.
            for path, _, files in os.walk(self.folder):
                for name in [".", *files]:
                    shutil.chown(os.path.join(path, name), USER)
        ran = run([PROGRAM, "-n", "-j", "-t", "example.tal", "-d", "cache", "out"], self.folder)
        path = os.path.join(self.folder, "out", "json")
        expect(os.path.exists(path), True, f"whether rpki-client writes JSON: {ran.reported!r}")
        return path
