"""What a client is answered where the disk doesn't do what was asked of it."""
from __future__ import annotations

import errno

from smblease import Status

STATUSES = {
    **dict.fromkeys((errno.ENOENT, errno.ELOOP), Status.OBJECT_NAME_NOT_FOUND),
    **dict.fromkeys((errno.EACCES, errno.EPERM), Status.ACCESS_DENIED),
    **dict.fromkeys((errno.ENOSPC, errno.EDQUOT, errno.EFBIG), Status.DISK_FULL),
    **dict.fromkeys((errno.EMFILE, errno.ENFILE, errno.ENOMEM), Status.INSUFFICIENT_RESOURCES),
    **dict.fromkeys((errno.ENAMETOOLONG, errno.EILSEQ), Status.OBJECT_NAME_INVALID),
    **dict.fromkeys((errno.EBUSY, errno.ETXTBSY), Status.SHARING_VIOLATION),
    errno.ENOTDIR: Status.OBJECT_PATH_NOT_FOUND, errno.EEXIST: Status.OBJECT_NAME_COLLISION,
    errno.ENOTEMPTY: Status.DIRECTORY_NOT_EMPTY, errno.EISDIR: Status.FILE_IS_A_DIRECTORY,
    errno.EIO: Status.IO_DEVICE_ERROR, errno.EROFS: Status.MEDIA_WRITE_PROTECTED, errno.EXDEV: Status.NOT_SAME_DEVICE,
    errno.ENOTSUP: Status.NOT_SUPPORTED, errno.EINVAL: Status.INVALID_PARAMETER,
}


def status_of(fault: OSError) -> Status:
    """Any other fault is UNSUCCESSFUL."""
    return STATUSES.get(fault.errno or 0, Status.UNSUCCESSFUL)
