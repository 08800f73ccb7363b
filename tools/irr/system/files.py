"""Files that are put in place in one step, folders that one process works in, and the last few of
many."""
import contextlib
import errno
import fcntl
import io
import os
import re
import shutil
import stat
import sys
import tempfile
from pathlib import Path
from typing import Any, BinaryIO, Iterable, Iterator

from irr.errors import ARGUMENTS, FAILED, Failure, system_words

PUBLIC, PRIVATE = 0o644, 0o600
# What tempfile puts after a prefix.
MADE = re.compile("[a-z0-9_]{8}")
# As many links as the system follows on the way to a file.
MOST_LINKS = 40


class Named(io.FileIO):
    """A new file that is open, whose faults name it: several may be written at a time."""

    def __init__(self, number: int, path: str) -> None:
        super().__init__(number, "wb")
        self.path = path

    def write(self, piece: Any) -> int:
        with named(self.path):
            return super().write(piece)


@contextlib.contextmanager
def written(path: str | os.PathLike[str], mode: int = PUBLIC) -> Iterator[BinaryIO]:
    """A new file that takes the place of `path` in one step, once all is written and on the disk.
    If anything fails before, `path` stays as it was. Only the owner reads the file until then. A
    link stays, and the file that it leads to is replaced, by one that gives nobody a right which
    that did not give. What is no file, such as /dev/null, is never replaced."""
    need_name(path)
    try:
        target = followed(path)
        if os.path.lexists(target) and not os.path.isfile(target):
            raise not_replaced(path)
        number, name = begun(target)
    except OSError as error:
        raise Failure(
            str(path), f"it cannot be written: {system_words(error)}; look at its folder"
        ) from None
    try:
        with io.BufferedWriter(Named(number, name)) as out:
            yield out
            out.flush()
            os.fchmod(out.fileno(), mode & mode_of(target))
            os.fsync(out.fileno())
            # While it is held: nobody takes it for one that was left.
            os.replace(name, target)
        sync_folder(target.parent)
    except BaseException as error:
        with contextlib.suppress(OSError):
            os.unlink(name)
        if isinstance(error, OSError) and error.filename in (None, name, str(target)):
            raise Failure(
                str(path),
                f"it cannot be written: {system_words(error)}; make room, or look at its folder",
            ) from None
        raise


def begun(target: Path) -> tuple[int, str]:
    """A new file beside another one, which this process holds, and its path. Those that runs have
    left which were killed go: nobody holds them."""
    prefix = f".{target.name}.irr-"
    for name in names_in(target.parent):
        if name.startswith(prefix) and MADE.fullmatch(name, len(prefix)):
            with contextlib.suppress(OSError):
                remove_left(target.with_name(name))
    while True:
        number, name = tempfile.mkstemp(prefix=prefix, dir=target.parent)
        with contextlib.suppress(OSError):
            fcntl.flock(number, fcntl.LOCK_EX)
        # Another process may have found it before it was held.
        if os.fstat(number).st_nlink:
            return number, name
        os.close(number)


def names_in(folder: Path) -> list[str]:
    """What is in a folder, if this user may see it."""
    try:
        return os.listdir(folder)
    except OSError:
        return []


def remove_left(path: Path) -> None:
    """Removes a file of this user that nobody holds."""
    number = os.open(path, os.O_RDWR | os.O_NOFOLLOW | os.O_NONBLOCK | os.O_CLOEXEC)
    try:
        found = os.fstat(number)
        if stat.S_ISREG(found.st_mode) and found.st_uid == os.geteuid():
            fcntl.flock(number, fcntl.LOCK_EX | fcntl.LOCK_NB)
            path.unlink()
    finally:
        os.close(number)


def need_name(path: str | os.PathLike[str]) -> None:
    if not str(path):
        raise Failure("", "the name of the file to write is empty; give its path", ARGUMENTS)


def followed(path: str | os.PathLike[str]) -> Path:
    """What a path leads to, by no link that another user may have planted, and never to what is
    open."""
    place, rest, links = Path("/"), list(reversed((Path.cwd() / path).parts[1:])), 0
    while rest:
        name = rest.pop()
        place = place.parent if name == ".." else place / name
        if is_open_file(place):
            raise not_replaced(path)
        if os.path.islink(place):
            need_own(place, path)
            links += 1
            if links > MOST_LINKS:
                raise not_replaced(path)
            lead = Path(os.readlink(place))
            place = Path("/") if lead.is_absolute() else place.parent
            rest += reversed(lead.parts[lead.is_absolute() :])
    return place


def not_replaced(path: str | os.PathLike[str]) -> Failure:
    return Failure(str(path), "it is not a file that can be replaced; give the path of another one")


def is_open_file(place: Path) -> bool:
    """Whether it is a device, or a name of an open file such as /dev/stdout: what that was opened
    as can't be replaced by its name."""
    return (
        place.parts[1:2] == ("proc",)
        or place.parent == Path("/dev")
        and (os.path.islink(place) or not os.path.isdir(place))
    )


def need_own(link: Path, path: str | os.PathLike[str]) -> None:
    """That a link is one that the kernel follows too where protected_symlinks is set: in a sticky
    folder that all may write it is the user's, or that of the folder's owner."""
    folder = os.stat(link.parent)
    is_of_all = folder.st_mode & stat.S_ISVTX and folder.st_mode & stat.S_IWOTH
    if is_of_all and os.lstat(link).st_uid not in (os.geteuid(), folder.st_uid):
        raise Failure(
            str(path),
            f"{link} is another user's link, in a folder where anybody may put one; "
            "give the path of another file",
        )


def mode_of(path: Path) -> int:
    """The rights that a file gives; those that the umask leaves where there is none."""
    if os.path.lexists(path):
        return stat.S_IMODE(os.stat(path).st_mode)
    # The system tells it to who sets it.
    mask = os.umask(0o077)
    os.umask(mask)
    return 0o777 & ~mask


@contextlib.contextmanager
def named(path: str | os.PathLike[str]) -> Iterator[None]:
    """Has a fault of the system that names no file name this one."""
    try:
        yield
    except OSError as error:
        if error.filename is None:
            error.filename = str(path)
        raise


def put(path: str | os.PathLike[str], pieces: bytes | Iterable[bytes], mode: int = PUBLIC) -> None:
    """Writes a whole file in one step."""
    with written(path, mode) as out:
        for piece in [pieces] if isinstance(pieces, bytes) else pieces:
            out.write(piece)


def put_new(path: str, text: bytes) -> None:
    """Writes a file that only its owner reads where there is nothing yet, not even a link. If that
    fails, there is nothing again."""
    need_name(path)
    need_new(path)
    try:
        place = followed(Path(path).parent) / Path(path).name
        if is_open_file(place):
            raise not_replaced(path)
        number = os.open(place, os.O_WRONLY | os.O_CREAT | os.O_EXCL | os.O_CLOEXEC, PRIVATE)
    except FileExistsError:
        raise not_new(path) from None
    except OSError as error:
        raise Failure(
            path, f"it cannot be written: {system_words(error)}; look at its folder"
        ) from None
    try:
        with os.fdopen(number, "wb") as out:
            out.write(text)
            out.flush()
            os.fsync(out.fileno())
        sync_folder(place.parent)
    except BaseException as error:
        with contextlib.suppress(OSError):
            os.unlink(place)
        if isinstance(error, OSError):
            raise Failure(
                path,
                f"it cannot be written: {system_words(error)}; make room, or look at its folder",
            ) from None
        raise


def need_new(path: str) -> None:
    if os.path.lexists(path):
        raise not_new(path)


def not_new(path: str) -> Failure:
    return Failure(
        path,
        "there is such a file; take another name, "
        "because it may have a password that is still needed",
        ARGUMENTS,
    )


def remove(path: Path) -> None:
    """Removes a folder with all that is in it, or a file, or a link but not what it leads to."""
    if path.is_symlink() or not path.is_dir():
        path.unlink()
    else:
        shutil.rmtree(path)


def sync_folder(path: str | os.PathLike[str]) -> None:
    """Lets what was renamed in a folder be on the disk."""
    number = os.open(path, os.O_RDONLY | os.O_DIRECTORY)
    try:
        with named(path):
            os.fsync(number)
    finally:
        os.close(number)


def folder(path: str | os.PathLike[str], mode: int = 0o755) -> Path:
    """The folder, made where there is none."""
    made = Path(path)
    try:
        made.mkdir(mode=mode, parents=True, exist_ok=True)
    except OSError as error:
        raise Failure(
            str(path), f"the folder cannot be made: {system_words(error)}; take another one"
        ) from None
    return made


@contextlib.contextmanager
def locked(path: str | os.PathLike[str]) -> Iterator[int]:
    """Holds a folder for one process at a time, by the file `.lock` in it. Whom the open file is
    handed to holds it too."""
    number = os.open(Path(path) / ".lock", os.O_RDWR | os.O_CREAT | os.O_CLOEXEC, PRIVATE)
    try:
        try:
            fcntl.flock(number, fcntl.LOCK_EX | fcntl.LOCK_NB)
        except BlockingIOError:
            raise Failure(
                str(path), "another irr works in this folder; wait until it ends", FAILED
            ) from None
        yield number
    finally:
        os.close(number)


def keep_last(paths: Iterable[Path], count: int) -> list[Path]:
    """Removes all but the last `count` files by name, and gives those that went."""
    gone = sorted(paths)[:-count] if count else sorted(paths)
    for path in gone:
        path.unlink()
    return gone


def opened(path: str) -> BinaryIO:
    """A file for reading, `-` for standard input."""
    if path == "-":
        need_input()
        return open(0, "rb", closefd=False)
    try:
        return open(path, "rb")
    except OSError as error:
        remedy = "let this user read it" if error.errno == errno.EACCES else "correct the path"
        raise Failure(path, f"it cannot be opened: {system_words(error)}; {remedy}") from None


def need_input() -> None:
    """That there is a standard input: where it was closed, its number is that of the next file that
    is opened."""
    if sys.stdin is None:
        raise Failure("standard input", "it is closed; give the command one")


def read(path: str) -> bytes:
    """All of a file, `-` for standard input."""
    with opened(path) as file:
        try:
            return file.read()
        except OSError as error:
            raise Failure(
                name_of(path), f"it cannot be read: {system_words(error)}; give another file"
            ) from None


def name_of(path: str) -> str:
    """A file of the command line as people call it."""
    return "standard input" if path == "-" else path
