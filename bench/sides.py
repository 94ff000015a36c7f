"""The servers that bench/speed compares, each on a core of its own, and the sites that they serve."""
import contextlib
import hashlib
import os
import random
from pathlib import Path
from typing import Callable, NamedTuple

from servers import SERVER, TOP, nginx, running
from tomcat_sites import Tomcat

CORES = sorted(os.sched_getaffinity(0))
# The server has a core of its own, and its clients use others, if there are enough of them.
SERVER_CORES, CLIENT_CORES = CORES[1:2], CORES[2:4] or CORES[:1]
SIZES = {"1 KiB": 1 << 10, "16 KiB": 16 << 10, "256 KiB": 256 << 10, "1 MiB": 1 << 20}
USER, PASSWORD, SALT, ROLE = "ann", "a secret of ann", "61", "reader"
DIGEST = hashlib.sha256(bytes.fromhex(SALT) + PASSWORD.encode()).hexdigest()
LOGIN_FORM = f"j_username={USER}&j_password={PASSWORD.replace(' ', '+')}"
PAGES = {"/login.html": b"<p>login</p>\n", "/secret/page.html": b"<p>secret</p>\n"}
LOGIN = f"""
[[security-constraint]]
web-resource-collection = [{{ url-pattern = ["/secret/*"] }}]
auth-constraint = {{ role-name = ["{ROLE}"] }}

[[security-role]]
role-name = "{ROLE}"

[login-config]
auth-method = "FORM"
form-login-config = {{ form-login-page = "/login.html", form-error-page = "/login.html" }}
"""
# The processor seconds after which Java has compiled the code that runs. After 20 it has not.
JAVA_WARM_UP = 60
WEB_XML = f"""<web-app xmlns="https://jakarta.ee/xml/ns/jakartaee" version="6.0" metadata-complete="true">
<servlet><servlet-name>default</servlet-name><servlet-class>org.apache.catalina.servlets.DefaultServlet</servlet-class></servlet>
<servlet><servlet-name>measured</servlet-name><servlet-class>Measured</servlet-class></servlet>
<servlet-mapping><servlet-name>default</servlet-name><url-pattern>/</url-pattern></servlet-mapping>
<servlet-mapping><servlet-name>measured</servlet-name>
<url-pattern>/hello</url-pattern><url-pattern>/stream</url-pattern><url-pattern>/bye</url-pattern></servlet-mapping>
<security-constraint><web-resource-collection><web-resource-name>secret</web-resource-name><url-pattern>/secret/*</url-pattern>
</web-resource-collection><auth-constraint><role-name>{ROLE}</role-name></auth-constraint></security-constraint>
<login-config><auth-method>FORM</auth-method><form-login-config><form-login-page>/login.html</form-login-page>
<form-error-page>/login.html</form-error-page></form-login-config></login-config>
<security-role><role-name>{ROLE}</role-name></security-role></web-app>
"""


class Side(NamedTuple):
    """A server: its name, a context manager that runs it and gives its process id and port, and its processor seconds before a measurement."""

    name: str
    serving: Callable
    warm_up: int = 0


def pinned(cores):
    """The words that precede a command to run it on these cores."""
    return ["taskset", "-c", ",".join(map(str, cores))] if cores else []


def run_side(program, folder):
    """The command `run` on the configuration of a folder."""
    words = [*pinned(SERVER_CORES), program, "run", "server.toml"]
    return Side("run", lambda: running(words, folder))


def hello_side(program):
    """The program `hello`, whose servlet reads a parameter."""
    return Side("hello", lambda: running([*pinned(SERVER_CORES), program, "0"], TOP))


def nginx_side(folder):
    return Side("nginx", lambda: nginx(folder, pinned(SERVER_CORES)))


def memory_side(peers, folder, answers):
    """The C program that writes these answers from memory, by their paths."""
    files = [f"{folder}/{path[1:]}" for path in answers]
    for file, answer in zip(files, answers.values(), strict=True):
        Path(file).write_bytes(answer)
    words = [*pinned(SERVER_CORES), peers, "memory", *files]
    return Side("C from memory", lambda: running(words, folder))


class MeasuredTomcat(Tomcat):
    """A Tomcat with the servlets and the login of the site, and the servlet of `hello`. The digest of the password is the same."""

    java = [*pinned(SERVER_CORES), "java", "-Xmx512m"]
    credentials = '<CredentialHandler className="org.apache.catalina.realm.MessageDigestCredentialHandler" algorithm="SHA-256"/>'

    def _write_configuration(self, sites):
        classes = self._write_base("Measured.java")
        user = f'<user username="{USER}" password="{SALT}$1${DIGEST}" roles="{ROLE}"/>'
        (self.base / "conf/tomcat-users.xml").write_text(f"<tomcat-users>{user}</tomcat-users>")
        root = self.base / "webapps/ROOT"
        (root / "WEB-INF").mkdir(parents=True)
        (root / "WEB-INF/web.xml").write_text(WEB_XML)
        classes.rename(root / "WEB-INF/classes")
        write_files(root, PAGES)

    @contextlib.contextmanager
    def serving(self):
        with self.running() as number:
            yield number, self.port


def tomcat_side(folder):
    return Side("Tomcat", MeasuredTomcat(Path(folder), []).serving, JAVA_WARM_UP)


def servlets(*classes):
    """The servlets of these classes in a descriptor, each mapped to its name in lower case."""
    names = [(it.lower(), it) for it in classes]
    declared = ", ".join(f'{{ servlet-name = "{it}", servlet-class = "{of}" }}' for it, of in names)
    mapped = ", ".join(f'{{ servlet-name = "{it}", url-pattern = ["/{it}"] }}' for it, _ in names)
    return f"servlet = [{declared}]\nservlet-mapping = [{mapped}]\n"


def write_files(folder, files):
    """Writes files below a folder, by their paths."""
    for path, content in files.items():
        file = Path(f"{folder}{path}")
        file.parent.mkdir(parents=True, exist_ok=True)
        file.write_bytes(content)


def write_site(folder):
    """Writes the site of `run` into a folder: servlets, a login by a form, and static files, which it returns."""
    noise = random.Random(0)
    large = {f"/{it}": noise.randbytes(it) for it in SIZES.values()}
    user = f'user = [{{ name = "{USER}", salt = "{SALT}", digest = "{DIGEST}", roles = ["{ROLE}"] }}]\n'
    server = SERVER.replace('files = ""', 'files = "files", users = "users.toml"')
    root = servlets("Who", "Keep", "Stream", "Bye") + LOGIN
    texts = {"/server.toml": server, "/root.toml": root, "/users.toml": user}
    write_files(folder, {path: text.encode() for path, text in texts.items()})
    write_files(f"{folder}/files", large | PAGES)
    return large
