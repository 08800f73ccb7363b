"""A whole machine: Debian with systemd on a disk of its own, which qemu runs, and which is asked
over a virtual serial port."""

from __future__ import annotations

import abc
import contextlib
import io
import json
import os
import re
import shutil
import socket
import subprocess
import tarfile
import time
from collections.abc import Mapping, Sequence
from typing import Any, Self

from checks.running import Failure, Skipped, short

# The files that a machine is given: their bytes, or their paths here.
Given = Mapping[str, bytes | str]
# What the machine has beside Debian's least: what the package recommends, what the units run, and
# what the trial asks with.
PACKAGES = [
    "systemd",
    "systemd-sysv",
    "udev",
    "dbus",
    "iproute2",
    "netbase",
    "linux-image-cloud-amd64",
    "initramfs-tools",
    "python3",
    "curl",
    "git",
    "bgpq4",
    "bird2",
    "whois",
    "sqlite3",
]
# What the long form has besides: a proxy whose certificate comes of a test authority. debootstrap
# does not find what certbot needs by another name.
PROXY = ["nginx", "certbot", "python3-cffi-backend", "pebble", "ca-certificates"]
SIZE = "3G"
# A tar file is the second disk: it brings the agent, and what a case needs. Debian's own timers
# stay quiet meanwhile.
FILES = {
    "etc/fstab": "/dev/vda / ext4 defaults 0 1\n",
    "etc/hostname": "trial\n",
    "etc/hosts": "127.0.0.1 localhost trial\n",
    "etc/apt/sources.list": "",
    "etc/initramfs-tools/modules": "virtio_pci\nvirtio_blk\nvirtio_console\next4\n",
    "etc/initramfs-tools/conf.d/small": "MODULES=list\nCOMPRESS=gzip\n",
    "etc/systemd/system/trial.service": """[Unit]
After=basic.target dev-vdb.device
Wants=dev-vdb.device
[Service]
ExecStart=/bin/sh -ec 'mkdir -p /run/given; tar -xf /dev/vdb -C /run/given; \\
    exec python3 -B /run/given/agent'
[Install]
WantedBy=multi-user.target
""",
}
QUIET = [
    "apt-daily.timer",
    "apt-daily-upgrade.timer",
    "dpkg-db-backup.timer",
    "e2scrub_all.timer",
    "e2scrub_reap.service",
    "fstrim.timer",
    "getty@tty1.service",
    "serial-getty@ttyS0.service",
    "bird.service",
    "nginx.service",
    "certbot.timer",
]
AGENT = """import json, os, subprocess
port = os.open("/dev/virtio-ports/asked", os.O_RDWR)
def tell(**ended):
    left = json.dumps(ended).encode() + b"\\n"
    while left:
        left = left[os.write(port, left):]
tell(boot=open("/proc/sys/kernel/random/boot_id").read().strip())
for line in os.fdopen(os.dup(port), "rb"):
    asked = json.loads(line)
    pipe = subprocess.PIPE
    environment = {**os.environ, "HOME": "/root", "LC_ALL": "C.UTF-8"}
    made = subprocess.Popen(["bash", "-c", asked["command"]], stdin=pipe, stdout=pipe, stderr=pipe,
                            start_new_session=True, cwd="/root", env=environment)
    try:
        printed, reported = made.communicate(asked["given"].encode("latin-1"), asked["seconds"])
    except subprocess.TimeoutExpired:
        os.killpg(made.pid, 9)
        printed, reported = made.communicate()
        reported += b"trial: not done in time"
    tell(status=made.returncode, printed=printed.decode("latin-1"),
         reported=reported.decode("latin-1"))
"""
# The most seconds until a boot answers: an emulated machine is slow, and slower beside other work.
PATIENCE = 600


def lacking(in_container: bool) -> str:
    """What is missing for a machine, as words; nothing if all is there."""
    tools = [
        "debootstrap",
        "mke2fs",
        *(["nsenter", "setpriv"] if in_container else ["qemu-system-x86_64"]),
    ]
    missing = [
        tool
        for tool in tools
        if shutil.which(tool, path=os.environ["PATH"] + ":/usr/sbin:/sbin") is None
    ]
    if missing:
        return f"{' and '.join(missing)} is not there"
    if os.geteuid():
        return "it takes root"
    if in_container:
        with open("/proc/mounts", encoding="ascii") as mounts:
            if not any(line.split()[2] == "cgroup2" for line in mounts):
                return "no control groups of version 2 are mounted here"
        apart = ["--mount", "--pid", "--net", "--ipc", "--uts", "--cgroup", "--fork"]
        if subprocess.run(["unshare", *apart, "true"], capture_output=True, check=False).returncode:
            return "no namespaces may be made here"
    return ""


class Image:
    """The machine's disk as Debian makes it, with its kernel: made once in a folder, and again if
    what it is made of has changed."""

    def __init__(self, folder: str, more: Sequence[str] = ()) -> None:
        self.folder, self.packages = os.path.abspath(folder), [*PACKAGES, *more]
        self.recipe = json.dumps([self.packages, SIZE, FILES, QUIET], indent=1)
        self.disk, self.kernel, self.first = (
            os.path.join(self.folder, name) for name in ["disk", "kernel", "initrd"]
        )
        self.record, self.figures = os.path.join(self.folder, "made"), ""

    def is_made(self) -> bool:
        """Whether the disk is there, of this recipe."""
        try:
            with open(self.record, encoding="utf-8") as opened:
                return opened.read() == self.recipe
        except FileNotFoundError:
            return False

    def make(self) -> str:
        if self.is_made():
            return "made before"
        root = os.path.join(self.folder, "root")
        shutil.rmtree(root, ignore_errors=True)
        os.makedirs(self.folder, exist_ok=True)
        try:
            self.lay_out(root)
            with open(f"{root}/etc/debian_version", encoding="ascii") as opened:
                version = opened.read().strip()
        finally:
            shutil.rmtree(root, ignore_errors=True)
        with open(self.record, "w", encoding="utf-8") as out:
            out.write(self.recipe)
        return f"Debian {version}, {os.stat(self.disk).st_blocks // 2048} MiB"

    def lay_out(self, root: str) -> None:
        self.do(
            "debootstrap",
            "--variant=minbase",
            f"--include={','.join(self.packages)}",
            "bookworm",
            root,
        )
        for path, text in FILES.items():
            os.makedirs(os.path.dirname(f"{root}/{path}"), exist_ok=True)
            with open(f"{root}/{path}", "w", encoding="ascii") as out:
                out.write(text)
        for command in [
            ["systemctl", "enable", "trial.service"],
            ["systemctl", "mask", *QUIET],
            ["update-initramfs", "-u"],
            ["apt-get", "clean"],
        ]:
            self.do("chroot", root, *command)
        for place in ["var/lib/apt/lists", "usr/share/locale", "usr/share/doc"]:
            shutil.rmtree(f"{root}/{place}")
        os.makedirs(f"{root}/usr/share/doc")
        for name in os.listdir(f"{root}/boot"):
            for word, path in [("vmlinuz-", self.kernel), ("initrd.img-", self.first)]:
                if name.startswith(word):
                    shutil.copy(f"{root}/boot/{name}", path)
        with contextlib.suppress(FileNotFoundError):
            os.remove(self.disk)
        self.do("mke2fs", "-q", "-F", "-t", "ext4", "-d", root, self.disk, SIZE)

    def do(self, *command: str) -> None:
        env = {
            **os.environ,
            "PATH": os.environ["PATH"] + ":/usr/sbin:/sbin",
            "LC_ALL": "C.UTF-8",
            "DEBIAN_FRONTEND": "noninteractive",
        }
        made = subprocess.run(
            command,
            stdin=subprocess.DEVNULL,
            stdout=subprocess.PIPE,
            stderr=subprocess.STDOUT,
            text=True,
            env=env,
            check=False,
        )
        if made.returncode:
            words = f"{command[0]}: status {made.returncode}, {short(made.stdout[-300:])}"
            raise Skipped(words) if command[0] == "debootstrap" else Failure(words)


class Machine(abc.ABC):
    """What is asked by commands."""

    process: subprocess.Popen[bytes]
    # How long it took to boot.
    seconds: float

    @abc.abstractmethod
    def ended(self, command: str, given: bytes = b"", seconds: int = 300) -> Ended:
        """Runs a command in the machine, as root, to its end."""

    @abc.abstractmethod
    def cut(self) -> None:
        """Ends it as a cut of its power does."""

    def __enter__(self) -> Self:
        return self

    def __exit__(self, *_: object) -> None:
        self.cut()

    def done(self, command: str, **options: Any) -> str:
        """What a command prints, which has to end with status 0."""
        ended = self.ended(command, **options)
        if ended.status:
            raise Failure(
                f"{command}: status {ended.status}, {short(ended.printed[-400:] + ended.reported)}"
            )
        return ended.printed

    def until(self, command: str, what: str, seconds: int = 240) -> str:
        """Waits until a command ends with status 0, and gives what it prints."""
        end = time.monotonic() + seconds
        while (ended := self.ended(command)).status:
            if time.monotonic() > end:
                raise Failure(
                    f"{what}: not within {seconds} s: {short(ended.printed + ended.reported)}"
                )
            time.sleep(0.3)
        return ended.printed

    def power_off(self) -> None:
        """As an operator does it: everything is stopped, and unmounted."""
        self.ended("systemctl poweroff --no-block")
        try:
            self.process.wait(240)
        except subprocess.TimeoutExpired:
            raise Failure("the machine is not off within 240 s of `systemctl poweroff`") from None
        self.cut()


class Ended:
    """How a command in a machine ended."""

    def __init__(self, ended: dict[str, Any]) -> None:
        self.status, self.printed = ended["status"], ended["printed"]
        self.reported = ended["reported"]


class Guest(Machine):
    """A machine that is on, from a disk that is a copy of the image's at first. Its `reported` are
    files of this system, into which what it writes to its ports told0, told1 .. comes at once.

    A cut is SIGKILL for qemu: what it had handed to this system by then is on the disk, and nothing
    else, whatever was flushed."""

    def __init__(self, image: Image, folder: str, disk: str, given: Given, ports: int = 0) -> None:
        self.folder, self.reported = folder, [
            os.path.join(folder, f"told{number}") for number in range(ports)
        ]
        self.console, self.buffer = os.path.join(folder, "console"), b""
        self.peer: socket.socket | None = None
        place = os.path.join(folder, "asked")
        if not os.path.exists(disk):
            subprocess.run(["cp", "--sparse=always", image.disk, disk], check=True)
        bring(os.path.join(folder, "given.tar"), {"agent": AGENT.encode(), **given})
        command = [
            "qemu-system-x86_64",
            "-accel",
            "tcg,thread=multi",
            "-cpu",
            "max",
            "-smp",
            "2",
            "-m",
            "768",
            "-display",
            "none",
            "-no-reboot",
            "-nic",
            "none",
            "-kernel",
            image.kernel,
            "-initrd",
            image.first,
            "-append",
            "root=/dev/vda rw console=ttyS0 quiet no_timer_check",
            "-serial",
            f"file:{self.console}",
            "-drive",
            f"file={disk},format=raw,if=virtio,cache=unsafe",
            "-drive",
            f"file={folder}/given.tar,format=raw,if=virtio,readonly=on",
            "-device",
            "virtio-serial-pci",
            "-chardev",
            f"socket,id=asked,path={place},server=on,wait=off",
            "-device",
            "virtserialport,chardev=asked,name=asked",
        ]
        for number, path in enumerate(self.reported):
            with open(path, "wb"):
                pass
            command += [
                "-chardev",
                f"file,id=told{number},path={path},append=on",
                "-device",
                f"virtserialport,chardev=told{number},name=told{number}",
            ]
        with contextlib.suppress(FileNotFoundError):
            os.remove(place)
        start = time.monotonic()
        with open(os.path.join(folder, "qemu.log"), "wb") as log:
            self.process = subprocess.Popen(
                command, stdin=subprocess.DEVNULL, stdout=log, stderr=log
            )
        try:
            self.meet(place, start + PATIENCE)
        except BaseException:
            self.cut()
            raise
        self.seconds = time.monotonic() - start

    def meet(self, place: str, end: float) -> None:
        """Waits until the agent is there."""
        while self.peer is None:
            self.look(end)
            with contextlib.suppress(OSError):
                peer = socket.socket(socket.AF_UNIX)
                peer.connect(place)
                self.peer = peer
            time.sleep(0.05)
        self.peer.settimeout(1)
        self.boot = self.read(end)["boot"]

    def look(self, end: float) -> None:
        if self.process.poll() is not None or time.monotonic() > end:
            with (
                open(self.console, "rb") as opened,
                open(os.path.join(self.folder, "qemu.log"), "rb") as log,
            ):
                last = opened.read()[-300:] + log.read()[-300:]
            raise Failure(
                f"the machine is {'off' if self.process.returncode is not None else 'silent'}:"
                f" {short(last)}"
            )

    def read(self, end: float) -> Any:
        """The next line of the agent."""
        while b"\n" not in self.buffer:
            with contextlib.suppress(TimeoutError):
                part = self.peer.recv(1 << 20)
                if not part:
                    self.look(time.monotonic())
                self.buffer += part
            if b"\n" not in self.buffer:
                self.look(end)
        line, _, self.buffer = self.buffer.partition(b"\n")
        return json.loads(line)

    def ended(self, command: str, given: bytes = b"", seconds: int = 300) -> Ended:
        """Runs a command in the machine, as root, to its end."""
        asked = {"command": command, "given": given.decode("latin-1"), "seconds": seconds}
        # A socket with a time limit sends a long text in parts as well.
        self.peer.settimeout(seconds)
        self.peer.sendall(json.dumps(asked).encode() + b"\n")
        self.peer.settimeout(1)
        return Ended(self.read(time.monotonic() + seconds + 60))

    def cut(self) -> None:
        """The power is gone."""
        self.process.kill()
        self.process.wait()
        if self.peer:
            self.peer.close()


def bring(path: str, files: Given) -> None:
    """Makes a tar file of texts and of files of this system, by their names in the machine."""
    with tarfile.open(path, "w") as out:
        for name, held in files.items():
            if isinstance(held, bytes):
                entry = tarfile.TarInfo(name)
                entry.size = len(held)
                out.addfile(entry, io.BytesIO(held))
            else:
                out.add(held, name)


def lines_in(path: str) -> int:
    """How many whole lines a file has."""
    with open(path, "rb") as opened:
        return opened.read().count(b"\n")


def found(pattern: str, text: str, what: str) -> str:
    """What the first group of a pattern is in a text."""
    seen = re.search(pattern, text, re.MULTILINE)
    if not seen:
        raise Failure(f"{what}: {short(text)}")
    return seen[1]
