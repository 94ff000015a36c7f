"""Users: the entries of a users file, and what is read of a tomcat-users.xml."""
from __future__ import annotations

import dataclasses
import hashlib
import re

from . import toml, tree
from .elements import shortened
from .limits import MAX_LIST_ITEMS, MAX_NAME_BYTES, is_name
from .role_names import imported_role, renaming, shown_role
from .told import Rank, Told
from .tree import Element

# No password is known to have this digest, so nobody logs in by it.
NO_DIGEST = "0" * 64
# The most hexadecimal digits that a salt may have.
MAX_SALT_DIGITS = 64

_NAMESPACES = ("", "http://tomcat.apache.org/xml")
_SALTED = re.compile(r"([0-9A-Fa-f]*)\$([0-9]+)\$([0-9A-Fa-f]+)")
_ATTRIBUTES = {
    "tomcat-users": {"version"},
    "role": {"rolename", "name", "description"},
    "group": {"groupname", "name", "description", "roles"},
    "user": {"username", "name", "fullName", "password", "roles", "groups"},
}
_XSI = "http://www.w3.org/2001/XMLSchema-instance "


@dataclasses.dataclass
class User:
    """A user: the salt in hexadecimal digits, and the digest, SHA-256 of the salt's bytes and the password's."""

    name: str
    salt: str
    digest: str
    roles: list[str]

    def text(self) -> str:
        """The user's entry in a users file."""
        return toml.table(
            "[[user]]",
            {
                "name": self.name,
                "salt": self.salt,
                "digest": self.digest,
                "roles": list(self.roles),
            },
        )


def with_password(name: str, roles: list[str], salt: bytes, password: bytes) -> User:
    """A user who logs in by a password."""
    return User(name, salt.hex(), hashlib.sha256(salt + password).hexdigest(), roles)


def read(text: bytes, told: Told) -> list[User]:
    """Reads the users of a tomcat-users.xml, with the roles of their groups, and reports what cannot be imported."""
    root = tree.read(text, told).root
    if root.name != "tomcat-users" or root.namespace not in _NAMESPACES:
        raise told.fault(root.line, f"{root.name} is no tomcat-users")
    _tell_what_is_not_taken(root, told)
    groups = {_name_of(it, "groupname"): _listed(it, "roles") for it in root.all("group")}
    users: dict[str, User] = {}
    for element in root.all("user"):
        user = _user(element, groups, told)
        if user is not None and user.name in users:
            told.tell(
                Rank.SECURITY,
                element.line,
                f"user {shortened(user.name)} is repeated: the first one counts",
            )
        elif user is not None:
            users[user.name] = user
    if len(users) > MAX_LIST_ITEMS:
        raise told.fault(
            1, f"{len(users)} users are more than {MAX_LIST_ITEMS}, which a users file may have"
        )
    return list(users.values())


def _tell_what_is_not_taken(root: Element, told: Told) -> None:
    for element in [root, *root.children]:
        known = (
            _ATTRIBUTES.get(element.name)
            if element is root or element.name != "tomcat-users"
            else None
        )
        if known is None or element.namespace != root.namespace:
            told.tell(
                Rank.IGNORED,
                element.line,
                f"{element.name} is no element of tomcat-users.xml, and is not read",
            )
            continue
        for attribute in element.attributes:
            if attribute not in known and not attribute.startswith(_XSI):
                told.tell(
                    Rank.IGNORED,
                    element.line,
                    f"the attribute {attribute.rpartition(' ')[2]} of {element.name} is none of tomcat-users.xml",
                )
        if element.text:
            told.tell(
                Rank.IGNORED,
                element.line,
                f"the text {shortened(element.text)} within {element.name} means nothing",
            )
        for child in element.children if element is not root else []:
            told.tell(
                Rank.IGNORED,
                child.line,
                f"{child.name} within {element.name} is no element of tomcat-users.xml, and is not read",
            )


def _name_of(element: Element, attribute: str) -> str:
    """The name of a user or a group, which Tomcat reads from either of two attributes."""
    return element.attributes.get(attribute, element.attributes.get("name", "")).strip()


def _listed(element: Element, attribute: str) -> list[str]:
    names = [name.strip() for name in element.attributes.get(attribute, "").split(",")]
    return [name for name in names if name]


def _user(element: Element, groups: dict[str, list[str]], told: Told) -> User | None:
    name = _name_of(element, "username")
    if not is_name(name):
        told.tell(
            Rank.SECURITY,
            element.line,
            f"user {shortened(name)} has no name of 1 to {MAX_NAME_BYTES} bytes, and is not read",
        )
        return None
    names = _listed(element, "roles")
    for group in _listed(element, "groups"):
        if group not in groups:
            told.tell(
                Rank.SECURITY,
                element.line,
                f"user {shortened(name)} is in the group {shortened(group)}, which does not exist",
            )
        names += groups.get(group, [])
    roles = [_role_told(element, name, role, told) for role in dict.fromkeys(names)]
    salt, digest = _credentials(element, name, told)
    return User(name, salt, digest, roles)


def _role_told(element: Element, user: str, role: str, told: Told) -> str:
    """The name under which a user's role is imported. Reports a new name."""
    renamed = renaming(role)
    if renamed:
        told.tell(
            Rank.SECURITY,
            element.line,
            f"user {shortened(user)} has the role {shown_role(role)}, which {renamed}",
        )
    return imported_role(role)


def _credentials(element: Element, name: str, told: Told) -> tuple[str, str]:
    """The salt and the digest of a user, and a digest that no password has where the file has none that can be taken over."""
    password = element.attributes.get("password", "")
    salted = _SALTED.fullmatch(password)
    why = "a password that is no digest with a salt"
    if not password:
        why = "no password"
    elif salted is not None:
        salt, rounds, digest = salted.groups()
        why = _why_not(salt, int(rounds), digest)
        if not why:
            return salt.lower(), digest.lower()
    told.tell(
        Rank.SECURITY,
        element.line,
        f"user {shortened(name)} has {why}: nobody logs in by this name until tools/new-user makes a new entry",
    )
    return "", NO_DIGEST


def _why_not(salt: str, rounds: int, digest: str) -> str:
    """Why a salted digest of Tomcat cannot be taken over: it is to be SHA-256 of the salt and the password, once."""
    if len(digest) != 64:
        return f"a digest of {len(digest)} hexadecimal digits, and SHA-256 has 64"
    if rounds != 1:
        return f"a digest of {rounds} rounds, and a users file has one"
    if len(salt) % 2 or len(salt) > MAX_SALT_DIGITS:
        return f"a salt of {len(salt)} hexadecimal digits, and a users file has an even number of at most {MAX_SALT_DIGITS}"
    return ""
