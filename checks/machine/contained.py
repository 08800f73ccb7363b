"""The machine's disk without a machine: its systemd runs in namespaces of this system's kernel, and
is asked by entering them."""

import contextlib
import os
import subprocess
import time

from checks.machine.drive import mounted
from checks.machine.guest import PATIENCE, Ended, Given, Image, Machine
from checks.running import Failure, short

# What belongs to the kernel, such as the clock, is not the container's.
RIGHTS = "--bounding-set=-sys_time,-sys_module,-sys_rawio,-sys_boot,-syslog"
# A root of its own: what systemd expects of a container, and no network but its own loopback.
ENTER = r"""set -e
mount --make-rprivate /
mount -t overlay -o "lowerdir=$1/lower,upperdir=$1/upper,workdir=$1/work" overlay "$1/root"
cd "$1/root"
: > etc/fstab
ln -sf /dev/null etc/systemd/system/trial.service
ln -sf /dev/null etc/systemd/system/console-getty.service
mount -t proc proc proc
mount --bind proc/sys proc/sys
mount -o remount,bind,ro proc/sys
mount -t sysfs -o ro sysfs sys
mount -t cgroup2 cgroup2 sys/fs/cgroup
mount -t tmpfs -o mode=755 tmpfs run
mount -t tmpfs -o mode=755 tmpfs dev
mount -t tmpfs -o mode=1777 tmpfs tmp
cp -a /dev/null /dev/zero /dev/full /dev/random /dev/urandom /dev/tty /dev/loop* dev
mkdir dev/pts dev/shm dev/mqueue dev/hugepages
mount -t devpts devpts dev/pts
mount -t tmpfs -o mode=1777 tmpfs dev/shm
mount -t mqueue mqueue dev/mqueue
ln -s pts/ptmx dev/ptmx
ln -s /proc/self/fd dev/fd
ip link set lo up
mkdir old
pivot_root . old
umount -l old
rmdir old
exec env -i container=trial PATH=/usr/sbin:/usr/bin:/sbin:/bin \
    setpriv "$2" /lib/systemd/systemd --show-status=false
"""


def cgroup(name: str) -> str:
    """The folder of a machine in this system's control groups of version 2."""
    with open("/proc/mounts", encoding="ascii") as mounts:
        found = [line.split()[1] for line in mounts if line.split()[2] == "cgroup2"]
    if not found:
        raise Failure("no control groups of version 2 are mounted here")
    return os.path.join(found[0], f"irrdesk-{os.getpid()}-{name}")


class Contained(Machine):
    """What a Guest is, without a kernel of its own: neither the power nor the disk of it can be
    cut."""

    def __init__(self, image: Image, folder: str, disk: str, given: Given) -> None:
        self.stack, self.group = contextlib.ExitStack(), cgroup(os.path.basename(disk))
        self.console, self.init = os.path.join(folder, "console"), ""
        for name in ["upper", "work", "root"]:
            os.makedirs(os.path.join(disk, name), exist_ok=True)
        start = time.monotonic()
        try:
            self.stack.enter_context(mounted(image.disk, os.path.join(disk, "lower"), "ro"))
            self.enter(disk)
            self.meet(start + PATIENCE)
            self.done("mkdir -p /run/given")
            for name, held in given.items():
                if not isinstance(held, bytes):
                    with open(held, "rb") as opened:
                        held = opened.read()
                self.done(f"cat > /run/given/{name}", given=held)
        except BaseException:
            self.cut()
            raise
        self.seconds = time.monotonic() - start

    def enter(self, disk: str) -> None:
        os.makedirs(self.group, exist_ok=True)
        apart = [
            "unshare",
            "--mount",
            "--pid",
            "--net",
            "--ipc",
            "--uts",
            "--cgroup",
            "--fork",
            "--kill-child",
        ]
        command = [
            "sh",
            "-c",
            'echo $$ > "$0/cgroup.procs"; exec "$@"',
            self.group,
            *apart,
            "bash",
            "-c",
            ENTER,
            "enter",
            disk,
            RIGHTS,
        ]
        with open(self.console, "wb") as log:
            self.process = subprocess.Popen(
                command, stdin=subprocess.DEVNULL, stdout=log, stderr=log
            )

    def meet(self, end: float) -> None:
        """Waits until systemd is there, and has begun."""
        while True:
            if self.process.poll() is not None or time.monotonic() > end:
                with open(self.console, "rb") as opened:
                    raise Failure(f"systemd does not begin: {short(opened.read()[-300:])}")
            with contextlib.suppress(OSError):
                with open(
                    f"/proc/{self.process.pid}/task/{self.process.pid}/children", encoding="ascii"
                ) as children:
                    self.init = next(iter(children.read().split()), "")
                with open(f"/proc/{self.init}/comm", encoding="ascii") as name:
                    if name.read() == "systemd\n" and self.ended("systemctl list-jobs").status == 0:
                        return
            time.sleep(0.1)

    def ended(self, command: str, given: bytes = b"", seconds: int = 300) -> Ended:
        """Runs a command inside, as root, to its end."""
        env = {"PATH": "/usr/sbin:/usr/bin:/sbin:/bin", "HOME": "/root", "LC_ALL": "C.UTF-8"}
        inside = ["nsenter", "-t", self.init, "-m", "-p", "-n", "-i", "-u", "-C", "setpriv", RIGHTS]
        made = subprocess.run(
            [*inside, "bash", "-c", f"cd /root; {command}"],
            input=given,
            capture_output=True,
            env=env,
            timeout=seconds,
            check=False,
        )
        return Ended(
            {
                "status": made.returncode,
                "printed": made.stdout.decode("latin-1"),
                "reported": made.stderr.decode("latin-1"),
            }
        )

    def cut(self) -> None:
        """All of it ends, by SIGKILL."""
        self.process.kill()
        self.process.wait()
        self.stack.close()
        # The last processes of a group may take a moment to be gone.
        for pause in [0, 0.2, 2]:
            time.sleep(pause)
            for folder, _, _ in os.walk(self.group, topdown=False):
                with contextlib.suppress(OSError):
                    os.rmdir(folder)
