"""A registry that is published by NRTM, version 4, from what its draft says
(draft-ietf-grow-nrtm-v4), as far as it is remembered here. It knows nothing of the code that it
tries; `openssl` signs."""

import base64
import gzip
import hashlib
import json
import re
import time
import uuid
from pathlib import Path
from typing import Any

from checks.mirrors.client4 import NOTIFICATION, openssl

Record = dict[str, Any]
MAKES = {
    "EdDSA": ["-algorithm", "ED25519"],
    "ES256": ["-algorithm", "EC", "-pkeyopt", "ec_paramgen_curve:P-256"],
}


class Writer4:
    """Puts the files of a registry among texts, each below its path; and keeps its keys in a
    folder."""

    def __init__(self, source: str, texts: "dict[str, bytes | int]", folder: Path) -> None:
        self.source, self.texts, self.folder = source, texts, folder
        self.keys = 0
        self.key = self.new_key("EdDSA")
        self.next_key: Path | None = None
        self.objects: dict[str, str] = {}
        self.begin()

    # Keys.

    def new_key(self, algorithm: str) -> Path:
        self.keys += 1
        path = self.folder / f"key{self.keys}-{algorithm}.pem"
        made = openssl("genpkey", *MAKES[algorithm])
        path.write_bytes(made.stdout)
        return path

    @staticmethod
    def public(key: Path) -> str:
        return openssl("pkey", "-pubout", "-in", str(key)).stdout.decode()

    def roll(self) -> None:
        assert self.next_key
        self.key, self.next_key = self.next_key, None

    # What is published.

    def begin(self) -> None:
        """Another session, of what there is now."""
        self.session, self.version, self.deltas = str(uuid.uuid4()), 1, list[Record]()
        self.take_snapshot()
        self.notify()

    def take_snapshot(self) -> None:
        records = [{"object": text.removesuffix("\n")} for text in self.objects.values()]
        self.snapshot = self.put("snapshot", records)

    def publish(self, changes: "list[tuple[str, str]]") -> None:
        """Another version, by changes of objects, each known by its first line."""
        for word, text in changes:
            if word == "ADD":
                self.objects[name_of(text)] = text
            else:
                del self.objects[name_of(text)]
        self.version += 1
        self.deltas.append(self.put("delta", [change(*one) for one in changes]))
        self.notify()

    def forget(self) -> None:
        """Names no change of before, and a snapshot of now."""
        self.take_snapshot()
        self.deltas = []
        self.notify()

    def head(self, kind: str) -> Record:
        return {
            "nrtm_version": 4,
            "type": kind,
            "source": self.source,
            "session_id": self.session,
            "version": self.version,
        }

    def put(self, kind: str, records: "list[Record]", head: Record | None = None) -> Record:
        """Puts a file of records, and says how it is named."""
        own = self.head(kind) | (head or {})
        return self.put_bytes(kind, gzip.compress(sequence([own, *records]), mtime=0))

    def put_bytes(self, kind: str, text: bytes) -> Record:
        found = hashlib.sha256(text).hexdigest()
        name = f"nrtm-{kind}.{self.version}.{self.source}.{self.session}.{found[:32]}.json.gz"
        self.texts[f"/4/{name}"] = text
        return {"version": self.version, "url": name, "hash": found}

    def notification(self) -> Record:
        """What the notification file says."""
        more = {"next_signing_key": self.public(self.next_key)} if self.next_key else {}
        return self.head("notification") | {
            "timestamp": stamp(time.time()),
            **more,
            "snapshot": self.snapshot,
            "deltas": self.deltas,
        }

    def notify(self, changed: Record | None = None) -> None:
        """Puts the notification file, of which some fields may be others; None takes one out."""
        named = self.notification() | (changed or {})
        named = {name: value for name, value in named.items() if value is not None}
        self.texts[f"/4/{NOTIFICATION}"] = self.signed(json.dumps(named).encode())

    def signed(self, payload: bytes, key: Path | None = None, head: Record | None = None) -> bytes:
        """The compact form of a text (RFC 7515, 7.1)."""
        key = key or self.key
        algorithm = key.stem.rpartition("-")[2]
        own = {"alg": algorithm} | (head or {})
        text = plain(json.dumps(own).encode()) + b"." + plain(payload)
        path = self.folder / "signing"
        path.write_bytes(text)
        if algorithm == "EdDSA":
            words = ["pkeyutl", "-sign", "-rawin", "-inkey", str(key), "-in", str(path)]
            return text + b"." + plain(openssl(*words).stdout)
        made = openssl("dgst", "-sha256", "-sign", str(key), str(path)).stdout
        (self.folder / "signature").write_bytes(made)
        shown = openssl("asn1parse", "-inform", "DER", "-in", str(self.folder / "signature"))
        numbers = re.findall(rb"INTEGER +:([0-9A-F]+)", shown.stdout)
        return text + b"." + plain(b"".join(int(one, 16).to_bytes(32) for one in numbers))


def name_of(text: str) -> str:
    """What tells an object from others."""
    origin = re.search("^origin:.*$", text, re.M)
    return text.partition("\n")[0] + (origin[0] if origin else "")


def change(word: str, text: str) -> Record:
    if word == "ADD":
        return {"action": "add_modify", "object": text.removesuffix("\n")}
    kind, _, value = text.partition("\n")[0].partition(":")
    key = value.strip()
    if kind == "route":
        key += text.partition("\norigin:")[2].partition("\n")[0].strip()
    return {"action": "delete", "object_class": kind, "primary_key": key}


def sequence(records: "list[Record]") -> bytes:
    return b"".join(b"\x1e" + json.dumps(one).encode() + b"\n" for one in records)


def stamp(seconds: float) -> str:
    return time.strftime("%Y-%m-%dT%H:%M:%SZ", time.gmtime(seconds))


def plain(text: bytes) -> bytes:
    """Base64url without padding."""
    return base64.urlsafe_b64encode(text).rstrip(b"=")
