"""A mirror by NRTM, version 4, from what its draft says (draft-ietf-grow-nrtm-v4), as far as it is
remembered here: a notification file that is signed, a snapshot, and the changes after it. It knows
nothing of the code that it tries; `openssl` verifies the signature."""

from __future__ import annotations

import base64
import gzip
import hashlib
import json
import os
import re
import subprocess
import tempfile
import uuid
from datetime import datetime, timedelta, timezone
from pathlib import Path
from typing import Any

from checks.mirrors.client import Key, key_of
from checks.running import Failure

NOTIFICATION = "update-notification-file.jose"
COMMON = {"nrtm_version", "type", "source", "session_id", "version"}
FILE = {"version", "url", "hash"}
Record = dict[str, Any]


class Unsigned(Exception):
    """A notification file is not signed by a key that the mirror trusts."""


class Mirror4:
    """The objects of a registry that is followed in a folder, and how far."""

    def __init__(self, source: str, folder: str, public_key: str) -> None:
        self.source, self.folder = source, Path(folder)
        # The key that is trusted, and the one that may sign next.
        self.key, self.next_key = public_key, ""
        self.session, self.version, self.made = "", 0, datetime.min.replace(tzinfo=timezone.utc)
        self.objects: dict[Key, str] = {}
        self.snapshots = self.deltas = 0

    def follow(self) -> bool:
        """Takes what is new. Whether there was anything."""
        notice = self.notification()
        if notice["session_id"] == self.session:
            if notice["version"] < self.version:
                raise Failure(f"version {notice['version']} after {self.version}")
            if notice["version"] == self.version:
                return False
        deltas = {one["version"]: one for one in notice["deltas"]}
        if notice["session_id"] != self.session or self.version + 1 not in deltas:
            self.session, self.version = notice["session_id"], notice["snapshot"]["version"]
            self.begin(self.records("snapshot", notice["snapshot"]))
        for version in range(self.version + 1, notice["version"] + 1):
            self.change(self.records("delta", deltas[version]))
            self.version = version
        return True

    # The notification file.

    def notification(self) -> Record:
        notice: Record = json.loads(self.payload((self.folder / NOTIFICATION).read_bytes()))
        need_fields(notice, COMMON | {"timestamp", "snapshot", "deltas"}, {"next_signing_key"})
        self.need_head(notice, "notification")
        made = datetime.strptime(notice["timestamp"], "%Y-%m-%dT%H:%M:%S%z")
        if made < self.made or made < datetime.now(timezone.utc) - timedelta(hours=24):
            raise Failure(f"it was made at {made}, and the one before at {self.made}")
        self.made, self.next_key = made, notice.get("next_signing_key", "")
        files = [notice["snapshot"], *notice["deltas"]]
        for one in files:
            need_fields(one, FILE, set())
            if not re.fullmatch("[0-9a-f]{64}", one["hash"]) or "/" in one["url"]:
                raise Failure(f"no file is named by {one}")
        versions = [one["version"] for one in notice["deltas"]]
        last = versions[-1] if versions else notice["snapshot"]["version"]
        if versions != list(range(last + 1 - len(versions), last + 1)):
            raise Failure(f"the changes have the versions {versions}")
        if max(last, notice["snapshot"]["version"]) != notice["version"]:
            raise Failure(f"version {notice['version']} is named, and there is {last}")
        if versions and notice["snapshot"]["version"] < versions[0] - 1:
            raise Failure(f"what changed after the snapshot is not named: {notice}")
        if len({one["url"] for one in files}) < len(files):
            raise Failure(f"a file is named twice: {notice}")
        return notice

    def payload(self, signed: bytes) -> bytes:
        """What a signed text says: by the key that is trusted, or by the next one, which is trusted
        alone from then on."""
        head, payload, signature = signed.split(b".")
        algorithm = json.loads(plain(head))["alg"]
        text, found = head + b"." + payload, plain(signature)
        if not is_signed(self.key, algorithm, text, found):
            if not self.next_key or not is_signed(self.next_key, algorithm, text, found):
                raise Unsigned
            self.key, self.next_key = self.next_key, ""
        return plain(payload)

    def need_head(self, head: Record, kind: str) -> None:
        if (head["nrtm_version"], head["type"], head["source"]) != (4, kind, self.source):
            raise Failure(f"this is no {kind} of {self.source}: {head}")
        if type(head["version"]) is not int or head["version"] < 1:
            raise Failure(f"version {head['version']!r}")
        if str(uuid.UUID(head["session_id"])) != head["session_id"]:
            raise Failure(f"session {head['session_id']!r}")
        if uuid.UUID(head["session_id"]).version != 4:
            raise Failure(f"session {head['session_id']!r} is not one of chance")

    # The files that it names.

    def records(self, kind: str, named: Record) -> list[Record]:
        """The records of a file after its head, which is that of the session and the version."""
        text = (self.folder / named["url"]).read_bytes()
        if hashlib.sha256(text).hexdigest() != named["hash"]:
            raise Failure(f"{named['url']} has another hash")
        head, *records = sequence(gzip.decompress(text))
        need_fields(head, COMMON, set())
        self.need_head(head, kind)
        if (head["session_id"], head["version"]) != (self.session, named["version"]):
            raise Failure(f"{named} begins with {head}")
        return records

    def begin(self, records: list[Record]) -> None:
        self.objects, self.snapshots = {}, self.snapshots + 1
        for record in records:
            need_fields(record, {"object"}, set())
            key = key_of(record["object"])
            if key in self.objects:
                raise Failure(f"{key} is twice in a snapshot")
            self.objects[key] = record["object"]

    def change(self, records: list[Record]) -> None:
        """Applies changes: at least one, and of each object one."""
        seen = set()
        self.deltas += 1
        for record in records:
            if record["action"] == "add_modify":
                need_fields(record, {"action", "object"}, set())
                key = key_of(record["object"])
                if self.objects.get(key) == record["object"]:
                    raise Failure(f"{key} is told as it was")
                self.objects[key] = record["object"]
            else:
                need_fields(record, {"action", "object_class", "primary_key"}, set())
                if record["action"] != "delete":
                    raise Failure(f"no change is {record['action']!r}")
                key = record["object_class"], record["primary_key"]
                if key[0] == "route":
                    key = "route", re.sub("(?=AS[0-9]+$)", " ", key[1])
                if key not in self.objects:
                    raise Failure(f"{key} is deleted, which is not there")
                del self.objects[key]
            if key in seen:
                raise Failure(f"{key} is told twice")
            seen.add(key)
        if not records:
            raise Failure("there is no change")


def sequence(text: bytes) -> list[Record]:
    """The texts of a sequence (RFC 7464), each whole."""
    if not text.startswith(b"\x1e"):
        raise Failure("it does not begin with the mark of a record")
    found = []
    for record in text[1:].split(b"\x1e"):
        if not record.endswith(b"\n"):
            raise Failure(f"a record is cut off: {record[-40:]!r}")
        found.append(json.loads(record.decode("utf-8")))
    return found


def need_fields(found: Record, wanted: set[str], may: set[str]) -> None:
    if not wanted <= found.keys() <= wanted | may:
        raise Failure(f"it has {sorted(found)}, and not {sorted(wanted)}")


def plain(text: bytes) -> bytes:
    """What base64url without padding stands for (RFC 7515, 2)."""
    if not re.fullmatch(rb"[A-Za-z0-9_-]*", text):
        raise Failure(f"{text[:40]!r} is no base64url")
    return base64.urlsafe_b64decode(text + b"=" * (-len(text) % 4))


def is_signed(key: str, algorithm: str, text: bytes, signature: bytes) -> bool:
    """Whether openssl says so, for a key of that algorithm."""
    kind = {"EdDSA": "ED25519", "ES256": "prime256v1"}[algorithm]
    with tempfile.TemporaryDirectory(prefix="irr-") as folder:
        names = [os.path.join(folder, name) for name in ("key", "text", "signature")]
        if algorithm == "ES256":
            signature = der(signature)
        for name, part in zip(names, (key.encode(), text, signature)):
            Path(name).write_bytes(part)
        shown = openssl("pkey", "-pubin", "-in", names[0], "-noout", "-text")
        if kind.encode() not in shown.stdout:
            return False
        words = ["-verify", "-rawin", "-pubin", "-inkey", names[0], "-sigfile", names[2]]
        words += ["-digest", "sha256"] if algorithm == "ES256" else []
        return openssl("pkeyutl", *words, "-in", names[1]).returncode == 0


def der(signature: bytes) -> bytes:
    """Two numbers side by side as openssl takes a signature of P-256."""
    if len(signature) != 64:
        raise Failure(f"a signature of {len(signature)} bytes")
    parts = b""
    for number in int.from_bytes(signature[:32]), int.from_bytes(signature[32:]):
        text = number.to_bytes(number.bit_length() // 8 + 1)
        parts += bytes([2, len(text)]) + text
    return bytes([0x30, len(parts)]) + parts


def openssl(*words: str) -> "subprocess.CompletedProcess[bytes]":
    return subprocess.run(["openssl", *words], capture_output=True, check=False)
