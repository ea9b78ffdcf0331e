"""Calls of the system that a record needs: locks, space that is reserved, new files, shares.

All of them may block, so they are called in a thread. None of them shortens or lengthens a file.
"""

import contextlib
import ctypes
import errno
import fcntl
import os
import pathlib
import secrets
import time

from ucl_hall.faults import Held

_LIBC = ctypes.CDLL(None, use_errno=True)
_KEEP_SIZE = 1
_NO_REPLACE = 1
_HERE = -100
# What a call ends with that this system or this file system does not have.
_UNKNOWN = (errno.ENOSYS, errno.EOPNOTSUPP, errno.EINVAL)
# File systems of other machines: locks and appends of two machines are not kept apart there.
SHARES = (
    *("nfs", "nfs4", "cifs", "smb3", "smbfs", "9p", "afs", "ceph", "coda", "lustre", "ncpfs"),
    *("vboxsf", "prl_fs", "fuse.sshfs", "fuse.glusterfs", "fuse.davfs", "fuse.rclone"),
    *("fuse.s3fs", "fuse.vmhgfs-fuse", "fuse.gvfsd-fuse", "fuse.ceph", "glusterfs", "davfs"),
)


def lock(file: int, seconds: float, name: str) -> None:
    """Takes the lock of a record, for this open file.

    Raises Held where another has it for so many seconds.
    """
    end = time.monotonic() + seconds
    while True:
        try:
            fcntl.flock(file, fcntl.LOCK_EX | fcntl.LOCK_NB)
            return
        except BlockingIOError as error:
            if time.monotonic() > end:
                raise Held(name) from error
            time.sleep(0.01)


def reserve(file: int, count: int) -> None:
    """Has the file system keep so many bytes free for the end of a file, whose size stays.

    A file system that has no such call changes nothing. Raises OSError where there is no room.
    """
    offset, length = ctypes.c_int64(os.fstat(file).st_size), ctypes.c_int64(count)
    while _LIBC.fallocate64(file, _KEEP_SIZE, offset, length) != 0:
        code = ctypes.get_errno()
        if code in _UNKNOWN:
            return
        if code != errno.EINTR:
            raise OSError(code, os.strerror(code))


def is_on_share(path: str, mounts: str | None = None) -> bool:
    """Whether the system says that a file is on another machine; no where it says nothing.

    `mounts` are lines as /proc/self/mountinfo has them.
    """
    device = os.stat(path).st_dev
    number = f"{os.major(device)}:{os.minor(device)}"
    if mounts is None:
        try:
            mounts = pathlib.Path("/proc/self/mountinfo").read_text(errors="replace")
        except OSError:
            return False
    for line in mounts.splitlines():
        words, _, about = line.partition(" - ")
        if words.split()[2:3] == [number]:
            return about.split()[:1] != [] and about.split()[0] in SHARES
    return False


def begin(path: str, data: bytes) -> bool:
    """Makes a file of these bytes, whole from its first moment on; it and its folder are on the
    disk then.

    False where there is such a file by now, which stays. Raises OSError where it can not be made.
    """
    folder = os.path.dirname(path) or "."
    beside = os.path.join(folder, f".{os.path.basename(path)}.{secrets.token_hex(8)}")
    try:
        with open(beside, "xb") as file:
            file.write(data)
            file.flush()
            os.fsync(file.fileno())
        is_made = _moved(beside, path)
        _sync_folder(folder)
        return is_made
    finally:
        with contextlib.suppress(FileNotFoundError):
            os.unlink(beside)


def _moved(old: str, new: str) -> bool:
    """Gives a file its name, unless there is one of this name: without a link, as FAT has none."""
    names = os.fsencode(old), os.fsencode(new)
    if _LIBC.renameat2(_HERE, names[0], _HERE, names[1], _NO_REPLACE) == 0:
        return True
    code = ctypes.get_errno()
    if code == errno.EEXIST:
        return False
    if code not in _UNKNOWN:
        raise OSError(code, os.strerror(code), new)
    try:
        os.link(old, new)
    except FileExistsError:
        return False
    return True


def _sync_folder(folder: str) -> None:
    file = os.open(folder, os.O_RDONLY | os.O_DIRECTORY)
    try:
        os.fsync(file)
    finally:
        os.close(file)
