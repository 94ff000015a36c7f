"""The configurations whose pages bench/audit_page reads."""
import json
import os
import subprocess
from typing import NamedTuple

from servers import TOP

SEED = "0" * 64
LOGIN = """
[login-config]
auth-method = "FORM"
form-login-config = { form-login-page = "/login.html", form-error-page = "/login.html" }
"""
USER = """
[[user]]
name = "ann"
salt = "61"
digest = "ba7816bf8f01cfea414140de5dae2223b00361a396177a9cb410ff61f20015ad"
roles = ["a"]
"""
# How many patterns a constraint may have, and how many constraints the large context has.
PATTERNS, CONSTRAINTS = 64, 40


class Site(NamedTuple):
    """A configuration: its name, and the command that audits it without the format."""

    name: str
    command: list


def listed(texts):
    """A list of texts in TOML."""
    return json.dumps(list(texts), ensure_ascii=False)


def constraint(patterns, roles=None, methods="", more=""):
    """A constraint of a descriptor. Without roles it admits everyone."""
    allowed = "" if roles is None else f"auth-constraint = {{ role-name = {listed(roles)} }}\n"
    collection = f"url-pattern = {listed(patterns)}{methods and ', ' + methods}"
    return f"\n[[security-constraint]]\n{allowed}web-resource-collection = [{{ {collection} }}]\n{more}"


def servlet(name, *patterns):
    """A servlet of a descriptor, with its patterns."""
    name = json.dumps(name, ensure_ascii=False)
    return (
        f'\n[[servlet]]\nservlet-name = {name}\nservlet-class = "Who"\n'
        f"\n[[servlet-mapping]]\nservlet-name = {name}\nurl-pattern = {listed(patterns)}\n"
    )


def declared(*roles):
    """Declarations of roles."""
    return "".join(f"\n[[security-role]]\nrole-name = {json.dumps(it)}\n" for it in roles)


def write(folder, contexts, files=None):
    """Writes a server: the path, the name and the text of each descriptor, the first with users. Returns the server file."""
    os.makedirs(folder)
    server = f'port = 0\nseed = "{SEED}"\n'
    for place, (path, name, text) in enumerate(contexts):
        held = "" if files is None or place else 'users = "users.toml"\n'
        server += f'\n[[context]]\npath = "{path}"\ndescriptor = "{name}"\nfiles = "{"files" if held else ""}"\n{held}'
        put(folder, name, text)
    put(folder, "users.toml", USER)
    put(folder, "server.toml", server)
    for name, text in (files or {}).items():
        put(folder, f"files/{name}", text)
    return f"{folder}/server.toml"


def put(folder, name, text):
    """Writes a file, and the folders in which it is."""
    path = f"{folder}/{name}"
    os.makedirs(os.path.dirname(path), exist_ok=True)
    with open(path, "w") as file:
        file.write(text)


def all_kinds(folder):
    """A server whose first context has cells and findings of all kinds."""
    confidential = 'user-data-constraint = { transport-guarantee = "CONFIDENTIAL" }\n'
    text = (
        servlet("who", "/a/*", "/who")
        + declared("a", "spare", "unheld")
        + constraint(["/a/*"], ["a", "unheld"], 'http-method = ["GET", "POST"]')
        + constraint(["/css/*", "/two/*", "/gone/*", "/50%25/*", "/x//y", "/who"], ["**"])
        + constraint(["/who"], None, 'http-method = ["GET"]')
        + constraint(["*.tar.gz"], [])
        + constraint(["*.txt"], ["stranger"])
        + constraint(["/a/tls/*"], None, "", confidential)
        + constraint(["/a/none/*", "/WEB-INF/x/*"], [])
        + constraint(["/gone/*"], ["a"])
        + LOGIN
    )
    sheet = '<link rel="stylesheet" href="/css/x.css">'
    files = {"login.html": sheet, "css/x.css": "p {}", "a/x.txt": "x"}
    return write(folder, [("", "root.toml", text), ("/two", "two.toml", "")], files)


def several_contexts(folder):
    """A server of contexts: one without a login, one that denies what is uncovered, one that declares no role."""
    no_login = constraint(["/a/*"], ["a"]) + constraint(["/b"], ["**"])
    denied = "deny-uncovered-http-methods = true\n" + constraint(
        ["", "/a/*"], ["a"], 'http-method = ["GET"]'
    )
    no_role = constraint(["/a/*"], ["*"]) + LOGIN
    contexts = [
        ("", "root.toml", no_login),
        ("/one", "one.toml", denied + LOGIN),
        ("/one/two", "two.toml", no_role),
    ]
    return write(folder, contexts)


def markup(folder):
    """A server whose names are markup, and have quotes, backslashes and control characters."""
    role = "<script>document.title = 'taken'</script> & \"role\""
    text = (
        servlet('<img src="/x">', "/<b>/*")
        + declared("a", role)
        + constraint(["/<b>/*", "/&amp;/'\"", "/\u00e4\\/*"], [role, "a"], 'http-method = ["GET"]')
        + constraint(["/</table>/*"], ["a\\b\u0007"])
        + LOGIN
    )
    return write(folder, [("", "<i>&.toml", text)])


def long_roles(folder):
    """A server with a role of 60 characters."""
    return write(folder, [("", "root.toml", constraint(["/a/*"], ["R" * 60]) + LOGIN)])


def many_methods(folder):
    """A server with 20 methods of 15 characters, which is the most, that are uncovered."""
    methods = f"http-method-omission = {listed(f'METHOD-{place:08}' for place in range(20))}"
    return write(folder, [("", "root.toml", constraint(["/a/*"], ["a"], methods) + LOGIN)])


def long_patterns(folder):
    """A server with a pattern of 200 characters, and a servlet with a name of 64, which is the most."""
    text = servlet("s" * 64, f"/{'a' * 200}/*") + constraint([f"/{'a' * 200}/*"], ["a"]) + LOGIN
    return write(folder, [("", "root.toml", text)])


def long_paths(folder):
    """A server with contexts of 60 characters each."""
    paths = ["", f"/{'p' * 60}", f"/{'p' * 60}/{'q' * 60}"]
    return write(folder, [(path, f"d{len(path)}.toml", "") for path in paths])


def long_files(folder):
    """A server with a descriptor whose name has 65 characters."""
    return write(folder, [("", f"{'d' * 60}.toml", constraint(["/a/*"], ["a"]) + LOGIN)])


def large(folder):
    """A server with three contexts that together have more rows and findings than a page shows."""
    parts = [
        constraint(
            [f"/area/{number}/{place}/*" for place in range(PATTERNS)],
            [f"role-{number}"],
            'http-method = ["GET"]',
        )
        for number in range(CONSTRAINTS)
    ]
    # The first context has 1,281 rows, so the page shows 719 of the second and none of the third.
    texts = ["".join(parts[:20]), "".join(parts[20:]), parts[0]]
    return write(
        folder,
        [(path, f"d{path[1:]}.toml", text + LOGIN) for path, text in zip(["", "/x", "/y"], texts)],
    )


BUILT = {
    "all kinds": all_kinds,
    "several contexts": several_contexts,
    "no constraints": lambda folder: write(folder, [("", "root.toml", "")]),
    "markup": markup,
    "a long role": long_roles,
    "many methods": many_methods,
    "a long pattern": long_patterns,
    "long paths": long_paths,
    "a long file name": long_files,
    "large": large,
}


def sites(program, folder):
    """All configurations, with those that are written into a folder."""
    for name in "site", "demo", "hole":
        yield Site(f"examples/{name}", [program, "audit", f"{TOP}/examples/{name}/server.toml"])
    imported = [f"{TOP}/tools/audit-web-xml", program, f"{TOP}/examples/audit/WEB-INF/web.xml"]
    yield Site("examples/audit", imported)
    yield Site("for ben", [program, "audit", f"{TOP}/examples/site/server.toml", "--as", "ben"])
    for name, build in BUILT.items():
        command = [program, "audit", build(f"{folder}/{name.replace(' ', '_')}")]
        yield Site(name, command)
        if name == "all kinds":
            yield Site("for role a", [*command, "--role", "a"])
            yield Site("accepted", [*command, "--accept", accepting(command, folder)])


def accepting(command, folder):
    """A file that accepts every other finding of an audit."""
    keys = subprocess.run([*command, "--format", "keys"], capture_output=True, check=True).stdout
    with open(f"{folder}/accepted.txt", "wb") as file:
        file.writelines(keys.splitlines(keepends=True)[::2])
    return f"{folder}/accepted.txt"
