"""The file of a stack, as it was when it was opened, and what is saved in it after a session was begun again."""

import contextlib
import fcntl
import os
import secrets
import stat
import tempfile
from typing import Iterator, Optional, Tuple

# What tells a file from another, and from itself after a change.
Identity = Tuple[int, int, int, int]


def _identity_of(found: os.stat_result) -> Identity:
    return found.st_dev, found.st_ino, found.st_size, found.st_mtime_ns


def _read(path: str) -> Tuple[bytes, Identity]:
    """The bytes of a file, and what it is. Raises OSError where it can't be read or isn't a plain file."""
    with open(path, "rb", opener=lambda name, flags: os.open(name, flags | os.O_NONBLOCK)) as file:
        found = os.fstat(file.fileno())
        if not stat.S_ISREG(found.st_mode):
            raise OSError("%s isn't a plain file" % path)
        return file.read(), _identity_of(found)


class OpenedFile:
    """The bytes of a file as they were when it was opened.

    A session that begins again begins with these bytes. Where the file is still the very one that was opened, the
    program opens it again. Where it isn't, as after a save, the program works on a copy of the first bytes in a folder
    of its own, under the same name; so no line that is given again touches the user's file. What is saved later lies in
    the copy then, and `saved` brings it to the file, with the same care as the program: it is written to a new file
    beside, synced, and renamed; and it isn't where another program has changed or locked the file, or where the file
    may not be written.
    """

    def __init__(self, path: str) -> None:
        """Reads the file. Raises OSError where it can't be read or isn't a plain file, such as a pipe."""
        self.path = os.path.abspath(path)
        self.bytes, self._opened = _read(self.path)
        self._known = self._opened
        self._folder: Optional["tempfile.TemporaryDirectory[str]"] = None
        self._copy: Optional[str] = None

    def _now(self) -> Optional[Identity]:
        """What the file is now; None where there is none."""
        try:
            return _identity_of(os.stat(self.path))
        except OSError:
            return None

    def _is_as_opened(self) -> bool:
        """Whether the file is still the one that was opened, with the same bytes."""
        try:
            return _read(self.path) == (self.bytes, self._opened)
        except OSError:
            return False

    def place(self) -> str:
        """The path on which a run begins: that of the file, or of a fresh copy of the first bytes."""
        if self._copy is None and self._is_as_opened():
            return self.path
        if self._folder is None:
            self._folder = tempfile.TemporaryDirectory(prefix="yarvekko-")
        self._copy = os.path.join(self._folder.name, os.path.basename(self.path))
        with open(self._copy, "wb") as file:
            file.write(self.bytes)
        return self._copy

    def saved(self) -> Optional[str]:
        """Takes note that the program has saved. Gives None, or why it couldn't be brought to the user's file."""
        if self._copy is not None:
            try:
                self._carry(self._copy)
            except OSError as error:
                return str(error.strerror or error)
        self.notice()
        return None

    def notice(self) -> None:
        """Takes the file as it is now for the one that the program saved, also where a save was broken off."""
        self._known = self._now() or self._known

    def _carry(self, copy: str) -> None:
        """Puts the bytes of the copy in the place of the file; where that isn't there any more, it is made again."""
        path = os.path.realpath(self.path)
        with contextlib.ExitStack() as kept:
            if os.path.exists(path):
                kept.enter_context(self._held(path))
            replace(path, _read(copy)[0])

    @contextlib.contextmanager
    def _held(self, path: str) -> Iterator[None]:
        """Locks the file, which has to be the one that was opened or saved last, and one that may be written."""
        if not stat.S_ISREG(os.stat(path).st_mode):
            raise OSError("it isn't a plain file")
        number = os.open(path, os.O_WRONLY | os.O_NONBLOCK | os.O_CLOEXEC)
        try:
            try:
                fcntl.flock(number, fcntl.LOCK_EX | fcntl.LOCK_NB)
            except BlockingIOError:
                raise OSError("another program has locked the file") from None
            except OSError:
                pass  # A file system may have no locks.
            if _identity_of(os.fstat(number)) != self._known:
                raise OSError("another program changed the file")
            yield
        finally:
            os.close(number)

    def close(self) -> None:
        """Removes the copy, where there is one."""
        if self._folder is not None:
            self._folder.cleanup()


def replace(path: str, data: bytes) -> None:
    """Puts these bytes in the place of a file, whole or not at all; its permissions stay. Raises OSError."""
    folder, name = os.path.split(os.path.abspath(path))
    beside = os.path.join(folder, "%s.%s.new" % (name[:50], secrets.token_hex(8)))
    like = os.stat(path) if os.path.exists(path) else None
    number = os.open(beside, os.O_WRONLY | os.O_CREAT | os.O_EXCL | os.O_CLOEXEC, 0o600 if like else 0o666)
    try:
        with open(number, "wb") as file:
            file.write(data)
            file.flush()
            if like:
                _give(number, like)
            os.fsync(number)
        os.replace(beside, path)
    except BaseException:
        with contextlib.suppress(FileNotFoundError):
            os.unlink(beside)
        raise
    _sync(folder)


def _give(number: int, like: os.stat_result) -> None:
    """Gives an open file the owner, the group and the permissions of another one, as far as this user may.

    Without the group, a group may do no more than everybody.
    """
    mode = stat.S_IMODE(like.st_mode)
    if not (_chown(number, like.st_uid, like.st_gid) or _chown(number, -1, like.st_gid)):
        mode &= 0o7707 | (mode & 0o007) << 3
    os.fchmod(number, mode)


def _chown(number: int, user: int, group: int) -> bool:
    """Gives an open file to a user, or with -1 to the one that it has, and to a group; whether that was permitted."""
    try:
        os.fchown(number, user, group)
    except PermissionError:
        return False
    return True


def _sync(folder: str) -> None:
    """Syncs the names of a folder, where the system can."""
    number = os.open(folder, os.O_RDONLY | os.O_CLOEXEC)
    try:
        with contextlib.suppress(OSError):
            os.fsync(number)
    finally:
        os.close(number)
