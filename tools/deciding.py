"""What security constraints decide, kept in plain lists and decided by going over them, as Jakarta Servlet 6.0, sections 12.1, 12.2 and 13.8, say: nothing is
taken from the program. A constraint is its number, its collections, its roles (none: it names no auth-constraint) and its transport guarantee, if it has
one; a collection is its patterns, `all`, `only` or `except`, and names of methods. tools/generated_edits and tools/generated_policies decide by it."""

# Transport guarantees that generated constraints may have.
GUARANTEES = [None, None, None, "NONE", "INTEGRAL", "CONFIDENTIAL"]


def rank(pattern, path):
    """How well a pattern matches a path, the better the more; none where it does not (sections 12.1 and 12.2)."""
    if pattern == "/":
        return 0, 0
    if pattern in (path, "" if path == "/" else None):
        return 3, 0
    if pattern.endswith("/*"):
        front = pattern[:-2]
        return (2, len(front)) if path == front or path.startswith(front + "/") else None
    is_extension = path.rpartition("/")[2].rpartition(".")[1:] == (".", pattern.removeprefix("*."))
    return (1, 0) if pattern.startswith("*.") and is_extension else None


def covers(collection, pattern, method):
    patterns, kind, names = collection
    return pattern in patterns and (kind == "all" or (method in names) == (kind == "only"))


def admits(roles, declared, caller):
    """Whether the roles of a constraint admit a caller of these roles, for the roles that the descriptor declares."""
    named = {it for it in roles if it not in ("*", "**")} | (
        set(declared) if "*" in roles else set()
    )
    return "**" in roles or not named.isdisjoint(it for it in caller if it not in ("*", "**"))


def verdict(constraints, denies, declared, method, path, caller):
    """The first case that holds, with its pattern, its number and its cause. A caller is its roles, or none."""
    patterns = [
        it
        for _, collections, _, _ in constraints
        for patterns, _, _ in collections
        for it in patterns
    ]
    matching = [it for it in patterns if rank(it, path)]
    if not matching:
        return "open", "-", "-", "NoPattern"
    best = max(matching, key=lambda it: rank(it, path))
    members = [
        it for it in constraints if any(covers(collection, best, method) for collection in it[1])
    ]
    if not members:
        return "denied" if denies else "open", best, "-", "Uncovered"
    precluding = [number for number, _, roles, _ in members if roles == []]
    free = [number for number, _, roles, _ in members if roles is None]
    admitting = [
        number for number, _, roles, _ in members if admits(roles or [], declared, caller or [])
    ]
    if precluding:
        return "denied", best, min(precluding), "Precluded"
    if all(guarantee in ("INTEGRAL", "CONFIDENTIAL") for _, _, _, guarantee in members):
        return "denied", best, members[0][0], "Transport"
    if free:
        return "open", best, min(free), "Unauthenticated"
    if caller is None:
        return "login", best, members[0][0], "NeedsCaller"
    return (
        ("open", best, min(admitting), "Role")
        if admitting
        else ("denied", best, members[0][0], "NoRole")
    )


def listed(texts):
    return "[" + ", ".join(f'"{it}"' for it in texts) + "]"


def table(constraint):
    """A constraint as an inline table of a descriptor."""
    _, collections, roles, guarantee = constraint
    keys = {"all": "", "only": ", http-method = ", "except": ", http-method-omission = "}
    tables = (
        f"{{ url-pattern = {listed(patterns)}{keys[kind] and keys[kind] + listed(names)} }}"
        for patterns, kind, names in collections
    )
    parts = [f'web-resource-collection = [{", ".join(tables)}]']
    parts += [] if roles is None else [f"auth-constraint = {{ role-name = {listed(roles)} }}"]
    parts += (
        [f'user-data-constraint = {{ transport-guarantee = "{guarantee}" }}'] if guarantee else []
    )
    return f'{{ {", ".join(parts)} }}'
