"""The members of a spreadsheet, which is a .zip: they are unpacked as they are read, and their bytes are counted
together."""
import zipfile
from collections.abc import Iterator

from openlink_update.outcome import Unreadable
from openlink_update.received import limits

_CHUNK = 2**18
_METHODS = (zipfile.ZIP_STORED, zipfile.ZIP_DEFLATED)  # Python unpacks the others without a limit of memory


class Package:
    def __init__(self, archive: zipfile.ZipFile) -> None:
        self._archive, self._size = archive, 0
        self.names = frozenset(archive.namelist())

    def chunks(self, name: str) -> Iterator[bytes]:
        """Yields the bytes of a member. Unreadable if it is damaged, encrypted, or packed in another way."""
        info = self._archive.getinfo(name)
        if info.flag_bits & 1:
            raise Unreadable("a spreadsheet with a password: save it without one")
        if info.compress_type not in _METHODS:
            raise Unreadable("a spreadsheet packed in a way that none is: save it again")
        try:
            with self._archive.open(info) as file:
                while chunk := file.read(_CHUNK):
                    self._size += len(chunk)
                    limits.check_size(self._size)
                    yield chunk
        except Unreadable:
            raise
        except Exception as fault:  # zipfile raises errors of many kinds for damaged bytes
            raise Unreadable("a spreadsheet that is cut short or damaged") from fault
