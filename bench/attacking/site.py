"""The site that is attacked: the Demo, with pages, a large file, and marks in what is protected; and what it must serve before and behind the attacks."""
import re
import shutil

from attacking.messages import FORM_TYPE, asked, sized
from attacking.peers import asked_once
from attacking.responses import Answers

PAGES = 100
LARGE = bytes(range(256)) * 4096
# What no answer to a stranger may have within it.
MARK = b"mark 5f0c1d7e93 of the protected page\n"
HIDDEN = b"mark 8ab2647f10 of the hidden file\n"


def page(number):
    return b"page %d\n" % number * (1 + number)


def make_site(demo, folder):
    """The Demo in that folder, with more files."""
    shutil.copytree(demo, folder, dirs_exist_ok=True)
    files = {f"pages/{it}.txt": page(it) for it in range(PAGES)}
    files |= {"large.bin": LARGE, "admin/x.txt": MARK, "WEB-INF/hidden.txt": HIDDEN}
    (folder / "files/pages").mkdir()
    for name, text in files.items():
        (folder / "files" / name).write_bytes(text)


async def asked_of(port, text):
    data, _ = await asked_once(port, text)
    return Answers(data).answer(text.split(b" ")[0])


def cookie_of(answer):
    """The cookie that an answer sets, as a request sends it back."""
    return re.match(rb"JSESSIONID=[0-9a-f]+", answer.fields[b"set-cookie"])[0]


async def stranger(port):
    """The cookie of a session without a caller."""
    return cookie_of(await asked_of(port, asked(b"GET", b"/keep")))


async def logs_in(port):
    """Whether a login leads to the protected page, and a large file comes whole."""
    sent = await asked_of(port, asked(b"GET", b"/admin/x.txt"))
    if sent.status != 200 or sent.body != b"login\n" or b"set-cookie" not in sent.fields:
        return False
    line = b"Cookie: " + cookie_of(sent) + b"\r\n"
    passed = await asked_of(
        port, sized(b"/j_security_check", b"j_username=ann&j_password=bc", FORM_TYPE, line)
    )
    if passed.status != 303 or passed.fields[b"location"] != b"/admin/x.txt":
        return False
    line = b"Cookie: " + cookie_of(passed) + b"\r\n"
    protected = await asked_of(port, asked(b"GET", b"/admin/x.txt", line))
    large = await asked_of(port, asked(b"GET", b"/large.bin"))
    return (protected.status, protected.body) == (200, MARK) and (large.status, large.body) == (
        200,
        LARGE,
    )
