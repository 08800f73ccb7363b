"""What a program can do that runs in the place of the server, in the sandbox of its unit, and what
it can do outside."""

import json
from typing import Any

from checks.machine.service import AS_OWNER, Service
from checks.running import Failure, expect, short

# It tries what a program that was taken over would try, and prints what came of it.
PROBE = r"""import ctypes, errno, json, os, socket, stat, subprocess, sys
seen = {}
def attempt(name, action):
    try:
        told = action()
        seen[name] = "done" if told is None else str(told)
    except OSError as error:
        seen[name] = errno.errorcode.get(error.errno, str(error))
libc = ctypes.CDLL(None, use_errno=True)
def call(name, *words):
    if getattr(libc, name)(*words) < 0:
        raise OSError(ctypes.get_errno(), name)
def reach(host, port=9):
    with socket.socket() as peer:
        peer.settimeout(5)
        peer.connect((host, port))
def write(path):
    with open(path, "a"):
        pass
def send(host):
    with socket.socket(socket.AF_INET, socket.SOCK_DGRAM) as peer:
        peer.sendto(b"x", (host, 9))
writable = []
for folder, folders, names in os.walk("/"):
    if folder in ("/proc", "/sys") or os.access(folder, os.W_OK):
        writable += [folder] * os.access(folder, os.W_OK)
        folders.clear()
        continue
    paths = [os.path.join(folder, name) for name in names]
    files = [path for path in paths if stat.S_ISREG(os.lstat(path).st_mode)]
    writable += [path for path in files if os.access(path, os.W_OK)]
seen["writable"] = sorted(writable)
for path in ["/etc/irrdesk/irr.toml", "/usr/bin/irrdesk", "/var/lib/other", "/run/other",
             "/proc/sys/kernel/core_pattern", "/sys/fs/cgroup/other"]:
    attempt("write " + path, lambda: write(path))
attempt("write /tmp/from-the-unit", lambda: write("/tmp/from-the-unit"))
attempt("read /etc/shadow", lambda: open("/etc/shadow").close())
attempt("list /home", lambda: None if os.listdir("/home") else "nothing")
attempt("reach 127.0.0.1", lambda: reach("127.0.0.1"))
for host in ["198.51.100.1", "198.51.100.2"]:
    attempt("reach " + host, lambda: reach(host))
    attempt("send to " + host, lambda: send(host))
for name in ["AF_INET6", "AF_UNIX", "AF_NETLINK", "AF_PACKET"]:
    kind = socket.SOCK_RAW if name == "AF_PACKET" else socket.SOCK_DGRAM
    attempt("socket " + name, lambda: socket.socket(getattr(socket, name), kind).close())
attempt("become root", lambda: os.setuid(0))
rootid = lambda: subprocess.run(["/usr/local/bin/rootid", "-u"], stdout=-1).stdout
attempt("root by setuid", lambda: "root" if rootid() == b"0\n" else "no root")
attempt("new user namespace", lambda: call("unshare", 0x10000000))
attempt("mount", lambda: call("mount", b"none", b"/mnt", b"tmpfs", 0, None))
attempt("make a setuid file", lambda: (write("own"), os.chmod("own", 0o4755), None)[-1])
memory = __import__("mmap").mmap
attempt("write and execute memory", lambda: libc.mmap and memory(-1, 4096, prot=7).close())
status = open("/proc/self/status").read()
kept = ("CapEff", "CapBnd", "NoNewPrivs", "Seccomp")
seen["status"] = [line for line in status.splitlines() if line.split(":")[0] in kept]
numbers = [name for name in os.listdir("/proc") if name.isdigit()]
seen["others"] = sum(os.stat("/proc/" + name).st_uid != os.getuid() for name in numbers)
print("probe " + json.dumps(seen))
"""
# A way to a machine outside, which answers at port 9, and a program that becomes root.
OUTSIDE = """ip netns add outside; ip link add near type veth peer name far netns outside
ip address add 198.51.100.1/24 dev near; ip link set near up
ip netns exec outside ip address add 198.51.100.2/24 dev far
ip netns exec outside ip link set far up
cat > /root/answer <<'END'
import socket, sys
listener = socket.create_server((sys.argv[1], 9))
while True:
    listener.accept()[0].close()
END
for place in 127.0.0.1 198.51.100.1; do
    python3 /root/answer $place > /dev/null 2>&1 < /dev/null &
done
ip netns exec outside python3 /root/answer 198.51.100.2 > /dev/null 2>&1 < /dev/null &
mkdir /home/somebody
cp /usr/bin/id /usr/local/bin/rootid
chmod 4755 /usr/local/bin/rootid
cp /run/given/probe /usr/local/bin/probe
sleep 2
"""
REFUSED = {
    "reach 198.51.100.1",
    "send to 198.51.100.1",
    "reach 198.51.100.2",
    "send to 198.51.100.2",
    "socket AF_INET6",
    "socket AF_UNIX",
    "socket AF_NETLINK",
    "socket AF_PACKET",
    "become root",
    "new user namespace",
    "mount",
    "make a setuid file",
    "write and execute memory",
    "read /etc/shadow",
    "list /home",
    "write /etc/irrdesk/irr.toml",
    "write /usr/bin/irrdesk",
    "write /var/lib/other",
    "write /run/other",
    "write /proc/sys/kernel/core_pattern",
    "write /sys/fs/cgroup/other",
}
# What the same user can do outside: that the trial tells one from the other.
OPEN = {
    "reach 198.51.100.1",
    "send to 198.51.100.2",
    "reach 198.51.100.2",
    "socket AF_INET6",
    "socket AF_UNIX",
    "socket AF_NETLINK",
    "new user namespace",
    "make a setuid file",
    "write and execute memory",
    "list /home",
}


def probe(printed: str) -> Any:
    line = next(
        (line for line in reversed(printed.splitlines()) if line.startswith("probe ")), None
    )
    if line is None:
        raise Failure(f"the probe printed nothing: {short(printed)}")
    return json.loads(line[6:])


class Sandbox:
    """A shell in the unit, beside the same outside."""

    def __init__(self, service: Service) -> None:
        self.service = service
        service.given["probe"] = PROBE.encode()

    def outside(self) -> str:
        """What the service's user does without the unit, which shows that the trial could find
        something."""
        guest = self.service.guest
        guest.done(OUTSIDE)
        guest.done("mkdir -p /run/own; chown irrdesk /run/own")
        seen = probe(
            guest.done(f"cd /run/own; {AS_OWNER} python3 /usr/local/bin/probe", seconds=600)
        )
        expect(
            {name: seen[name] for name in sorted(OPEN)},
            {name: "done" for name in sorted(OPEN)},
            "what is open outside",
        )
        expect(seen["root by setuid"], "root", "a program that becomes root")
        guest.done("rm /tmp/from-the-unit")
        return f"{len(OPEN) + 1} ways are open to the user without the unit"

    def inside(self) -> str:
        """The same within the server's sandbox."""
        service, guest = self.service, self.service.guest
        # The probe has no port that a start would wait for.
        service.changed(
            "[Service]\nExecStart=\nExecStart=/usr/bin/python3 /usr/local/bin/probe\n"
            "ExecStartPost=\nRestart=no\n"
        )
        guest.done("systemctl restart irrdesk")
        guest.until(
            "test $(systemctl show --property=ActiveState --value irrdesk) != active",
            "the probe's end",
            seconds=600,
        )
        seen = probe(service.journal("irrdesk"))
        service.changed("")
        guest.done("rm -f /var/lib/irrdesk/own; systemctl restart irrdesk")
        service.serves("after the probe")
        done = sorted(name for name in REFUSED if seen[name] in ("done", "root"))
        expect(done, [], "what the sandbox lets through")
        expect(
            seen["root by setuid"] in ("no root", "EPERM"),
            True,
            f"a program that becomes root: {seen['root by setuid']}",
        )
        expect(seen["reach 127.0.0.1"], "done", "this machine itself")
        expect(
            seen["writable"],
            ["/tmp", "/var/lib/irrdesk", "/var/tmp"],
            "which files and folders may be written",
        )
        expect(
            guest.ended("ls /tmp/from-the-unit").status != 0, True, "whether its /tmp is its own"
        )
        expect(seen["others"], 0, "processes of others that it sees")
        status = dict(line.split(":\t") for line in seen["status"])
        zero = "0" * 16
        expect(
            status,
            {"CapEff": zero, "CapBnd": zero, "NoNewPrivs": "1", "Seccomp": "2"},
            "its rights",
        )
        return f"{len(REFUSED) + 1} ways are closed"
