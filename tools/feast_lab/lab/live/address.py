"""Where the page of a chain at work is: its port and its token, in a file of the chain's folder.

The file is a page that leads a browser to the chain, so no command line has the token, which each user of the machine
could read there. Its owner alone can read it. A server that is started anew takes port and token from it, so a page that
is still open finds the chain again. Such a page must not give its token to whoever has taken the port since: it asks
for a proof first, which takes the token to make, and tells nothing of it.
"""
import hmac
import os
import re
import secrets
import stat
import tempfile
from dataclasses import dataclass
from pathlib import Path

from ..base.errors import LabError
from ..base.files import PART, cause

HOST = "127.0.0.1"
NAME = "live.html"
OTHERS = stat.S_IRWXG | stat.S_IRWXO
LONGEST = 4096  # bytes of the file
FORM = re.compile(rf"http://{re.escape(HOST)}:([1-9][0-9]{{0,4}})/([A-Za-z0-9_-]{{32}})/")
LEADING = """<!doctype html>
<html lang="en">
<head>
<meta charset="utf-8">
<meta name="referrer" content="no-referrer">
<meta http-equiv="refresh" content="0; url={url}">
<title>./lab live</title>
</head>
<body><p><a href="{url}">The chain at work</a></p></body>
</html>
"""


@dataclass(frozen=True)
class Address:
    """A port of this machine, and the token without which nothing is answered there."""

    port: int
    token: str

    @staticmethod
    def anew(port: int) -> "Address":
        """An address with a token of its own."""
        return Address(port, secrets.token_urlsafe(24))

    @staticmethod
    def kept(folder: Path) -> "Address | None":
        """The address on file; None if there is none, or if others than the user may have read or written it."""
        try:
            handle = os.open(folder / NAME, os.O_RDONLY | os.O_NOFOLLOW | os.O_NONBLOCK | os.O_CLOEXEC)
            with open(handle, "rb") as file:
                if not is_own(os.fstat(handle)):
                    return None
                match = FORM.search(file.read(LONGEST).decode("latin-1"))
        except OSError:
            return None
        return Address(int(match[1]), match[2]) if match and int(match[1]) < 65536 else None

    @property
    def url(self) -> str:
        """The address as a browser takes it."""
        return f"http://{HOST}:{self.port}/{self.token}/"

    def keep(self, folder: Path) -> Path:
        """Writes the file; gives back where it is. What lay there is replaced, and never written to."""
        place = folder / NAME
        try:
            handle, beside = tempfile.mkstemp(PART, f".{NAME}.", folder)  # a name of its own, which its owner alone can read
            try:
                with open(handle, "w", encoding="ascii") as file:
                    file.write(LEADING.format(url=self.url))
                os.replace(beside, place)
            except BaseException:
                os.unlink(beside)
                raise
        except OSError as error:
            raise LabError(f"{place}: can't be written: {cause(error)}") from error
        return place

    def proof(self, nonce: str) -> str:
        """What only a server of this address can answer to a number that is asked once."""
        return hmac.new(self.token.encode(), f"{self.port} {nonce}".encode(), "sha256").hexdigest()


def is_own(found: os.stat_result) -> bool:
    """Whether a file is the user's own, and no other user may read or write it by this name or another one."""
    is_mine = stat.S_ISREG(found.st_mode) and found.st_uid == os.geteuid() and found.st_nlink == 1
    return is_mine and not found.st_mode & OTHERS
