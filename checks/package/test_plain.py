"""The README's first command and the package in a plain Debian: no toolchain, and a user without
rights. The root is made by debootstrap once, and the checks go on one after the other in a copy of
it."""

import contextlib
import os
import re
import shutil
import socket
import subprocess
import time
import urllib.request
from collections.abc import Iterator
from typing import Any

import pytest

from checks.package.packages import (
    DIST,
    is_released,
    lintian_is_silent,
    make_release,
    package_of,
    released,
)
from checks.running import (
    DIGEST,
    PATIENCE,
    TOP,
    Failure,
    Skipped,
    Tell,
    Trial,
    expect,
    short,
    write,
)
from checks.serving import free_port, read_all
from irr import VERSION

# It looks at times, and one check goes on where the other ended.
pytestmark = pytest.mark.alone


CACHE = "/var/cache/irrdesk/bookworm"
VISITOR = 4_321
CLONE = "/home/visitor/irrdesk"
ENVIRONMENT = {
    "PATH": "/usr/sbin:/usr/bin:/sbin:/bin",
    "LC_ALL": "C.UTF-8",
    "DEBIAN_FRONTEND": "noninteractive",
}
# What a package may leave behind: what dpkg, apt and adduser keep of their own.
KEPT = re.compile(
    r"/(var/(lib/(dpkg|apt|systemd)|cache|log)|etc/(passwd|group|shadow|gshadow|subuid|subgid)-?$"
    r"|run|tmp|root|home|dev|proc)\b"
)


class Ended:
    """How a command in the root ended: its status, what it printed and reported, and the seconds
    that it took."""

    def __init__(
        self,
        plain_root: str,
        command: str,
        user: int | None = None,
        folder: str = "/",
        given: bytes = b"",
        patience: int = 300,
    ) -> None:
        words = [
            "chroot",
            *([f"--userspec={user}:{user}"] if user else []),
            plain_root,
            "sh",
            "-c",
            f"cd {folder} && {command}",
        ]
        env = {**ENVIRONMENT, "HOME": "/home/visitor" if user else "/root"}
        start = time.monotonic()
        made = subprocess.run(
            words, input=given, capture_output=True, env=env, timeout=patience, check=False
        )
        self.seconds = time.monotonic() - start
        self.status, self.printed, self.reported = (
            made.returncode,
            made.stdout.decode(),
            made.stderr.decode(),
        )


@pytest.fixture(scope="module")
def root(trial: Trial) -> str:
    """The folder of a plain Debian."""
    lacking = [word for word in ["debootstrap", "chroot"] if shutil.which(word) is None]
    if lacking or os.geteuid():
        pytest.skip(f"{' and '.join(lacking)} is not here" if lacking else "it takes root")
    path = os.path.join(trial.work, "debian")
    make_root(path)
    return path


@pytest.fixture(scope="module")
def before(root: str) -> set[str]:
    """What the root has before the package is installed, but with what that needs."""
    needs = done(root, f"dpkg-deb --field {package(root)} Depends").strip()
    done(root, f"apt-get satisfy --yes --no-install-recommends '{needs}'")
    return listing(root)


def done(root: str, command: str, **options: Any) -> str:
    """What a command in the root prints, which has to end with status 0."""
    ended = Ended(root, command, **options)
    if ended.status:
        raise Failure(f"{command}: status {ended.status}, {short(ended.printed + ended.reported)}")
    return ended.printed


def inside(root: str, path: str) -> str:
    return os.path.join(root, path.lstrip("/"))


# The root, and the clone in it.


def make_root(path: str) -> None:
    """Makes the root in the cache, if it is not there, and copies it."""
    if not os.path.isdir(CACHE):
        os.makedirs(os.path.dirname(CACHE), exist_ok=True)
        shutil.rmtree(f"{CACHE}.new", ignore_errors=True)
        made = subprocess.run(
            ["debootstrap", "--variant=minbase", "bookworm", f"{CACHE}.new"],
            stdout=subprocess.PIPE,
            stderr=subprocess.STDOUT,
            text=True,
            check=False,
        )
        if made.returncode:
            raise Skipped(f"debootstrap made no root: {short(made.stdout[-300:])}")
        for package in os.listdir(f"{CACHE}.new/var/cache/apt/archives"):
            if package.endswith(".deb"):
                os.remove(f"{CACHE}.new/var/cache/apt/archives/{package}")
        os.rename(f"{CACHE}.new", CACHE)
    subprocess.run(["cp", "-a", CACHE, path], check=True)


def test_a_plain_debian_has_no_toolchain(root: str, tell: Tell) -> None:
    done(root, f"useradd --uid {VISITOR} --create-home visitor")
    done(root, "! command -v rt && ! command -v python3 && ! command -v gcc")
    tell(done(root, "cat /etc/debian_version").strip())


def test_the_clone_has_a_release(trial: Trial, root: str, tell: Tell) -> None:
    """Copies the repository's files, without what was made, and with a release of the program."""
    clone = inside(root, CLONE)
    os.makedirs(clone)
    packed = subprocess.Popen(
        ["tar", "-c", "--exclude=out", "--exclude=.git", "--exclude=dist/*.deb", "-C", TOP, "."],
        stdout=subprocess.PIPE,
    )
    subprocess.run(["tar", "-x", "-C", clone], stdin=packed.stdout, check=True)
    expect(packed.wait(), 0, "the status of tar")
    is_shipped = is_released(trial.program)
    if is_shipped:
        shutil.copy(package_of(DIST), os.path.join(clone, "dist"))
    else:
        make_release(trial.program, os.path.join(clone, "dist"))
    subprocess.run(["chown", "-R", f"{VISITOR}:{VISITOR}", clone], check=True)
    tell("with the release of dist/" if is_shipped else "with a release that was made for this")


def package(root: str) -> str:
    """The path of the package in the root."""
    return package_of(inside(root, f"{CLONE}/dist")).removeprefix(root)


# The clone.


def test_the_first_command_prints_what_the_page_says_in_time(root: str, tell: Tell) -> None:
    """That the README's first command prints what stands below it, and within two seconds where it
    never ran: the best of three."""
    with open(os.path.join(TOP, "README.md"), encoding="utf-8") as opened:
        found = re.search(
            r"^```sh\n(.*?)^```\n\n```text\n(.*?)^```$", opened.read(), re.MULTILINE | re.DOTALL
        )
    command, printed = found[1].strip(), found[2]
    wanted = (1 if "refused" in printed else 0, "", printed)
    times: list[float] = []
    while len(times) < 3 and min(times, default=3) > 2:
        shutil.rmtree(inside(root, f"{CLONE}/out"), ignore_errors=True)
        ended = Ended(root, command, user=VISITOR, folder=CLONE)
        expect((ended.status, ended.reported, ended.printed), wanted, command)
        times.append(ended.seconds)
    again = Ended(root, command, user=VISITOR, folder=CLONE)
    expect((again.status, again.reported, again.printed), wanted, f"{command}, once more")
    if min(times) > 2:
        raise Failure(f"{command} answers after {min(times):.1f} s")
    tell(f"`{command}` within {min(times):.1f} s, and then {again.seconds:.1f} s")


def test_changed_sources_print_what_a_build_takes(root: str, tell: Tell) -> None:
    """That no program of other sources is run: with changed ones ./irrdesk says what a build takes,
    and begins none."""
    source = inside(root, f"{CLONE}/crates/rr_cli/src/main.rt")
    with open(source, "a", encoding="utf-8") as opened:
        opened.write("\n")
    ended = Ended(root, "./irrdesk --version", user=VISITOR, folder=CLONE)
    with open(source, "r+", encoding="utf-8") as opened:
        opened.truncate(os.path.getsize(source) - 1)
    expect((ended.status, ended.printed), (2, ""), "its end")
    for word in ["scripts/build", "55 minutes", "7 GB", "toolchain", "out/build.log"]:
        expect(word in ended.reported, True, f"whether it says {word!r}")
    done(root, "./irrdesk --version", user=VISITOR, folder=CLONE)
    tell(f"after {ended.seconds:.1f} s")


def test_a_damaged_package_runs_nothing(root: str, tell: Tell) -> None:
    """That a program whose digest is not that of PROOF is not run."""
    released = inside(root, f"{CLONE}/out/release/irrdesk")
    with open(released, "ab") as opened:
        opened.write(b"x")
    done(root, "./irrdesk --version", user=VISITOR, folder=CLONE)
    proof = inside(root, f"{CLONE}/dist/PROOF")
    with open(proof, encoding="utf-8") as opened:
        text = opened.read()
    write(os.path.dirname(proof), "PROOF", re.sub(r"(?m)^(Program: )..", r"\g<1>zz", text).encode())
    ended = Ended(root, "./irrdesk --version", user=VISITOR, folder=CLONE)
    write(os.path.dirname(proof), "PROOF", text.encode())
    expect((ended.status, ended.printed), (2, ""), "its end")
    expect(
        "not the one of dist/PROOF" in ended.reported, True, f"whether {ended.reported!r} says so"
    )
    tell("a damaged program is unpacked again, another one is refused")


def test_the_sums_of_the_release_fit(root: str, tell: Tell) -> None:
    """That the sums in SHA256SUMS are those of the package and of PROOF."""
    tell(
        ", ".join(
            done(root, "sha256sum -c SHA256SUMS", user=VISITOR, folder=f"{CLONE}/dist").splitlines()
        )
    )


def test_the_package_runs_unpacked(root: str, tell: Tell) -> None:
    """The package in a folder of one's own."""
    done(
        root, f"mkdir own && dpkg-deb -x {package(root)} own", user=VISITOR, folder="/home/visitor"
    )
    tell(done(root, "own/usr/bin/irrdesk --version", user=VISITOR, folder="/home/visitor").strip())


# The package.


def listing(root: str) -> set[str]:
    """All that is in the root, but for what dpkg, apt and adduser keep of their own."""
    found: set[str] = set()
    for folder, folders, names in os.walk(root):
        place = "/" + os.path.relpath(folder, root) if folder != root else ""
        folders[:] = [name for name in folders if not KEPT.match(f"{place}/{name}")]
        found.update(
            f"{place}/{name}" for name in [*folders, *names] if not KEPT.match(f"{place}/{name}")
        )
    return found


def test_the_package_is_installed(before: set[str], root: str, tell: Tell) -> None:
    """That apt installs the package, says what to do next, and neither makes a registry nor starts
    anything."""
    ended = Ended(root, f"apt-get install --yes --no-install-recommends {package(root)}")
    expect(ended.status, 0, f"apt-get: {short(ended.printed + ended.reported)}")
    reported = [
        line.strip()
        for line in ended.printed.partition("no registry yet")[2].splitlines()
        if line.startswith("  ")
    ]
    expect(reported, ["irr setup"], "what it says is next")
    seen = done(root, "stat -c '%U:%G %a %n' /etc/irrdesk /etc/irrdesk/irr.toml /var/lib/irrdesk")
    expect(
        seen.splitlines(),
        [
            "root:irrdesk 750 /etc/irrdesk",
            "root:irrdesk 640 /etc/irrdesk/irr.toml",
            "irrdesk:irrdesk 700 /var/lib/irrdesk",
        ],
        "who owns what",
    )
    expect(os.listdir(inside(root, "/var/lib/irrdesk")), [], "what is in the registry's folder")
    expect(
        done(root, "dpkg-query --show --showformat '${Version}' irrdesk"),
        VERSION,
        "the package's version",
    )
    ended = Ended(root, "runuser -u irrdesk -- irrdesk init /etc/irrdesk/irr.toml")
    expect(
        (ended.status, "`auth`" in ended.reported),
        (3, True),
        f"init before the settings are edited: {ended.reported!r}",
    )
    tell(f"version {VERSION}")


@contextlib.contextmanager
def served(root: str) -> Iterator[Any]:
    """The command of the unit, as its user, on a free port."""
    with open(inside(root, "/usr/lib/systemd/system/irrdesk.service"), encoding="ascii") as opened:
        command = re.search(r"^ExecStart=(.*)$", opened.read(), re.MULTILINE)[1]
    port = free_port()
    command = re.sub(r"--port \d+ --count \d+", f"--port {port} --count 4", command)
    server = subprocess.Popen(
        ["chroot", "--userspec=irrdesk:irrdesk", root, *command.split()],
        env=ENVIRONMENT,
        stdout=subprocess.PIPE,
    )
    try:
        expect(server.stdout.readline(), b"listening on 127.0.0.1:%d\n" % port, "its first line")
        yield port
        expect(
            (server.wait(PATIENCE), server.stdout.read()), (0, b"served 4, failed 0\n"), "its end"
        )
    finally:
        server.kill()


def ask(port: int, text: bytes) -> str:
    with contextlib.closing(socket.create_connection(("127.0.0.1", port), 30)) as peer:
        peer.sendall(text)
        return read_all(peer).decode()


def test_a_registry_of_the_package_is_served(root: str, tell: Tell) -> None:
    """That the settings, edited, make a registry, which the unit's command serves."""
    done(
        root,
        (
            f"sed -i 's/^auth = .*/auth = \"SHA256-PW a:{DIGEST}\"/; s/EXAMPLE/TEST/'"
            " /etc/irrdesk/irr.toml"
        ),
    )
    done(root, "runuser -u irrdesk -- irrdesk init /etc/irrdesk/irr.toml")
    with open(os.path.join(TOP, "examples", "first.rpsl"), "rb") as opened:
        text = opened.read()
    with served(root) as port:
        expect(ask(port, b"ROOT-MNT\r\n").splitlines()[0].split(), ["mntner:", "ROOT-MNT"], "whois")
        with urllib.request.build_opener(urllib.request.ProxyHandler({})).open(
            f"http://127.0.0.1:{port}/submissions", text, 30
        ) as reported:
            report = reported.read().decode().splitlines()
        expect(
            [line.split(": ")[-1] for line in report],
            [
                *["added", "changed"] * 3,
                "added",
                "refused E13",
                "refused E15",
                "added",
                "% items 10",
            ],
            "the report",
        )
        expect("origin:         AS64496\n" in ask(port, b"192.0.2.1\r\n"), True, "the route")
        expect(ask(port, b"GET /dump HTTP/1.1\r\n\r\n").splitlines()[-1], "% end 9", "the dump")
    tell("init, whois, a submission, a dump")


def test_the_package_is_installed_again(root: str, tell: Tell) -> None:
    """That a package put in again asks nothing, keeps what was edited, and says nothing of a
    registry to be made."""
    before = done(root, "cat /etc/irrdesk/irr.toml; stat -c '%U:%G %a' /etc/irrdesk/irr.toml")
    ended = Ended(root, f"dpkg --install {package(root)}")
    expect((ended.status, ended.reported), (0, ""), "its end")
    expect("no registry yet" in ended.printed, False, "whether it says that there is no registry")
    expect(
        done(root, "cat /etc/irrdesk/irr.toml; stat -c '%U:%G %a' /etc/irrdesk/irr.toml"),
        before,
        "the settings",
    )
    tell("the settings stay as they were edited")


def test_each_released_package_takes_its_place_and_gives_it_back(root: str, tell: Tell) -> None:
    """That a registry, its settings and what is enabled stay as they are when the package goes back
    to a released one, and comes from there again, and that nothing is asked."""
    place = inside(root, "/srv/released")
    os.makedirs(place)
    # What `systemctl enable` makes.
    links = "/etc/systemd/system/multi-user.target.wants"
    os.makedirs(inside(root, links), exist_ok=True)
    os.symlink("/lib/systemd/system/irrdesk.service", inside(root, f"{links}/irrdesk.service"))
    looked = (
        "cat /etc/irrdesk/irr.toml; stat -c '%U:%G %a' /etc/irrdesk/irr.toml /var/lib/irrdesk*;"
        " runuser -u irrdesk -- irrdesk dump /etc/irrdesk/irr.toml --full;"
        f" readlink {links}/irrdesk.service"
    )
    before, tried = done(root, looked), released(place)
    if not tried:
        pytest.skip("this clone has no released package")
    for path in tried:
        for installed in path.removeprefix(root), package(root):
            done(root, f"dpkg --install {installed} < /dev/null")
            expect(done(root, looked), before, f"the registry after {os.path.basename(installed)}")
    shutil.rmtree(place)
    tell(f"{len(tried)} packages")


def test_the_package_is_taken_away_to_the_last_file(
    root: str, before: set[str], tell: Tell
) -> None:
    """That a removal keeps settings and data, a purge the data alone, and one without data
    nothing."""
    done(root, "apt-get remove --yes irrdesk")
    kept = done(root, "cd /; ls -d etc/irrdesk/* var/lib/irrdesk/* usr/*bin/irr* || true").split()
    wanted = ["etc/irrdesk/door.toml", "etc/irrdesk/irr.toml", "var/lib/irrdesk/irr.db"]
    expect(kept[:3], wanted, "what a removal keeps")
    expect([path for path in kept if path.startswith("usr/")], [], "what it takes away")
    # What the units and the operator make.
    again = ["/var/cache/irrdesk/dump", "/var/lib/private/irrdesk-mirror/irr.db"]
    again += ["/etc/irrdesk/setup.json", "/etc/irrdesk/submitters.conf"]
    again += ["/etc/irrdesk/submitters.acl"]
    again += ["/var/lib/systemd/timers/stamp-irrdesk-backup.timer"]
    own = [
        "/etc/nginx/irrdesk.users",
        "/etc/systemd/system/irrdesk-dump.service",
        "/etc/systemd/system/irrdesk-mirror.service.d/override.conf",
        "/var/lib/irrdesk-backup/20261128T031502Z/irr.db",
        "/var/lib/irrdesk-history/.git/HEAD",
        "/var/lib/private/irrdesk-view/all/irr.db",
        "/var/log/private/irrdesk-door/items.log",
    ]
    for path in [*again, *own]:
        os.makedirs(os.path.dirname(inside(root, path)), exist_ok=True)
        write(os.path.dirname(inside(root, path)), os.path.basename(path), b"")
    for name in "lib/irrdesk-mirror", "lib/irrdesk-view", "log/irrdesk-door":
        place, last = os.path.split(name)
        os.symlink(f"private/{last}", inside(root, f"/var/{place}/{last}"))
    nginx = inside(root, "/etc/nginx")
    write(nginx, "irr.conf", b"include /etc/irrdesk/submitters.conf;\n")
    ended = Ended(root, "dpkg --purge irrdesk")
    expect((ended.status, ended.reported), (0, ""), "the purge")
    expect("nginx -t fails" in ended.printed, True, f"what it says of nginx: {ended.printed}")
    shutil.rmtree(nginx)
    kept = re.findall(r"^  (/\S+)$", ended.printed, re.MULTILINE)
    wanted = [
        *own[:2],
        own[2].rpartition("/")[0],
        "/var/lib/irrdesk",
        "/var/lib/irrdesk-backup",
        "/var/lib/irrdesk-history",
        "/var/lib/private/irrdesk-view",
        "/var/log/private/irrdesk-door",
    ]
    expect(kept, wanted, "what the purge says that it keeps")
    left = done(root, f"find / -xdev -path '*irrdesk*' -prune -print | grep -v '^{CLONE}'")
    is_named = re.compile(
        r"/(etc/systemd/system/irrdesk-(mirror.service.d|dump.service)"
        r"|var/lib/irrdesk(-backup|-history)?"
        r"|var/lib/(private/)?irrdesk-view|var/log/(private/)?irrdesk-door"
        r"|home/visitor/.*|(proc|sys)/.*|var/lib/systemd/.*)"
    )
    expect([path for path in left.split() if not is_named.fullmatch(path)], [], "what it keeps")
    for user in "irrdesk", "irrdesk-public", "irrdesk-filter":
        done(root, f"getent passwd {user}")
    links = "/var/log/irrdesk-door /var/lib/irrdesk-view"
    done(root, f"rm -rf {' '.join(kept)} {links} /var/log/private /var/lib/private")
    done(root, f"dpkg --install {package(root)}")
    printed = done(root, "dpkg --purge irrdesk")
    expect("nginx" in printed, False, f"whether it speaks of an nginx that is not there: {printed}")
    expect(sorted(listing(root) - before), [], "what a purge without data keeps")
    expect(Ended(root, "getent passwd irrdesk").status, 2, "whether there is a user")
    tell("nothing is left but the data")


# The making of a release.


def test_apt_takes_it_from_a_folder_that_is_signed(trial: Trial, root: str, tell: Tell) -> None:
    """That the folder which scripts/release makes is a repository for apt, which trusts the
    operator's key, and takes nothing of it once its index is another one."""
    if shutil.which("gpg") is None:
        pytest.skip("gpg is not there")
    home, place = trial.place("gpg"), inside(root, "/srv/apt")
    os.chmod(home, 0o700)
    env = {**os.environ, "GNUPGHOME": home}
    key = [
        "gpg",
        "--batch",
        "--passphrase",
        "",
        "--quick-generate-key",
        "op@example.net",
        "ed25519",
    ]
    subprocess.run(key, env=env, check=True, capture_output=True)
    script = [f"{TOP}/scripts/release", "--repository", "op@example.net"]
    made = subprocess.run(
        [*script, inside(root, package(root)), place], env=env, capture_output=True, check=False
    )
    subprocess.run(["gpgconf", "--kill", "all"], env=env, check=False)
    expect((made.returncode, made.stdout), (0, f"{place}\n".encode()), f"its end: {made.stderr!r}")
    lines = (
        "Types: deb\nURIs: file:/srv/apt\nSuites: ./\nSigned-By: /etc/apt/keyrings/irrdesk.asc\n"
    )
    done(root, "install -D -m 644 /srv/apt/irrdesk.asc /etc/apt/keyrings/irrdesk.asc")
    write(inside(root, "/etc/apt/sources.list.d"), "irrdesk.sources", lines.encode())
    update = "apt-get update -o Dir::Etc::sourcelist=/dev/null -o APT::Get::List-Cleanup=0"
    done(root, update)
    done(root, "apt-get install --yes irrdesk")
    version = done(root, "dpkg-query --show --showformat '${Version}' irrdesk")
    expect(version, VERSION, "the version that apt installed")
    done(root, "apt-get purge --yes irrdesk")
    with open(os.path.join(place, "Packages"), "ab") as opened:
        opened.write(b"\n")
    done(root, "rm -f /var/lib/apt/lists/*srv_apt*")
    ended = Ended(root, f"{update}; apt-get install --yes irrdesk")
    expect(ended.status != 0, True, f"whether apt refuses a changed index: {short(ended.reported)}")
    tell("installed by apt, and refused with a changed index")


def test_lintian_finds_nothing_in_the_package(root: str, tell: Tell) -> None:
    tell(lintian_is_silent(package_of(inside(root, f"{CLONE}/dist"))))


def test_a_release_made_twice_is_the_same_bytes(trial: Trial, tell: Tell) -> None:
    """Two releases in two folders, made under other masks, are the same bytes."""
    seen = []
    for name, mask in [("one", 0o022), ("two", 0o077)]:
        folder = trial.place(f"release/{name}")
        old = os.umask(mask)
        try:
            path = make_release(trial.program, folder)
        finally:
            os.umask(old)
        with open(path, "rb") as opened:
            seen.append(opened.read())
    expect(seen[0] == seen[1], True, "whether they are the same")
    tell(f"{len(seen[0])} bytes")
