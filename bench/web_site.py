"""The site that bench/clients serves: pages with a style sheet and pictures, a file of 1 MiB, and a page behind a login by a form."""
import hashlib
import os
import random
import struct
import zlib

from servers import ROOT, SERVER

# What a form escapes is in the password.
USER, PASSWORD, SALT = "ann", "grün & 100 % + mehr", "61"
PICTURES = 8
# The background that the style sheet sets.
STYLE = "rgb(1, 102, 203)"
# The length of a picture's side by the page that shows it: some 80 bytes, since the Demo's files are as small, and some 256 KiB.
PAGES = {"page": 8, "album": 296}
LARGE = "/a"
LARGE_BYTES = 1_048_576
SECRET = "/secret/page.html"
DESCRIPTOR = (
    ROOT
    + """
[[security-constraint]]
web-resource-collection = [{ url-pattern = ["/secret/*"] }]
auth-constraint = { role-name = ["reader"] }

[[security-role]]
role-name = "reader"

[login-config]
auth-method = "FORM"
form-login-config = { form-login-page = "/login.html", form-error-page = "/error.html" }
"""
)
# The form as the specification's section 13.6.3.1 has it.
FORM = """<form method="POST" action="j_security_check">
<input type="text" name="j_username">
<input type="password" name="j_password" autocomplete="off">
<button>Log in</button>
</form>"""


def chunk(kind, body):
    """A chunk of a PNG (RFC 2083, section 3.2)."""
    return struct.pack(">I", len(body)) + kind + body + struct.pack(">I", zlib.crc32(kind + body))


def picture(side, noise):
    """A square of pixels, of three bytes each: of one colour where it is small, else noise, which does not shrink."""
    colours = (
        noise.randbytes(3) * side**2
        if side == min(PAGES.values())
        else noise.randbytes(3 * side**2)
    )
    lines = (colours[3 * side * line : 3 * side * (line + 1)] for line in range(side))
    pixels = zlib.compress(b"".join(b"\0" + line for line in lines))
    header = struct.pack(">IIBBBBB", side, side, 8, 2, 0, 0, 0)
    return (
        b"\x89PNG\r\n\x1a\n" + chunk(b"IHDR", header) + chunk(b"IDAT", pixels) + chunk(b"IEND", b"")
    )


def html(title, body, head=""):
    return f'<!DOCTYPE html>\n<html lang="en">\n<meta charset="utf-8">\n<title>{title}</title>\n{head}{body}\n</html>\n'.encode()


def files():
    """All files of the site by their paths."""
    noise = random.Random(0)
    found = {
        "/style.css": f"body {{ background-color: {STYLE} }}\n".encode(),
        "/login.html": html("login", FORM),
        "/error.html": html("error", FORM),
        SECRET: html("secret", "<p>secret</p>"),
        LARGE: noise.randbytes(LARGE_BYTES),
    }
    for page, side in PAGES.items():
        names = [f"{page}{number}.png" for number in range(PICTURES)]
        shown = "\n".join(f'<img src="{name}" alt="">' for name in names)
        found[f"/{page}.html"] = html(page, shown, '<link rel="stylesheet" href="style.css">\n')
        found |= {f"/{name}": picture(side, noise) for name in names}
    return found


def users():
    digest = hashlib.sha256(bytes.fromhex(SALT) + PASSWORD.encode()).hexdigest()
    return f'user = [{{ name = "{USER}", salt = "{SALT}", digest = "{digest}", roles = ["reader"] }}]\n'


def write_site(folder):
    """Writes the site into a folder, and answers its files."""
    site = files()
    server = SERVER.replace('files = ""', 'files = "files", users = "users.toml"')
    written = {
        "/server.toml": server.encode(),
        "/root.toml": DESCRIPTOR.encode(),
        "/users.toml": users().encode(),
    }
    written |= {f"/files{path}": content for path, content in site.items()}
    for path, content in written.items():
        os.makedirs(os.path.dirname(folder + path), exist_ok=True)
        with open(folder + path, "wb") as file:
            file.write(content)
    return site
