"""What the page of an audit should show, by its JSON report and docs/COMMANDS.md."""

MAX_ROWS, MAX_FINDINGS = 2000, 2000
# The text on callers and the kind of a cell, by the word that its group has as `because`.
WHO = {
    "open": ("everyone", "open"),
    "no-constraint": ("everyone (no constraint)", "open"),
    "uncovered": ("everyone (uncovered)", "uncovered"),
    "login": ("any login", "login"),
    "role": ("role {}", "login"),
    "transport": ("needs TLS", "tls"),
    "precluded": ("nobody (no role is allowed)", "nobody"),
    "no-role": ("nobody (no such role)", "nobody"),
    "no-login": ("nobody (no login)", "nobody"),
    "uncovered-denied": ("nobody (uncovered, denied)", "nobody"),
}
FINDINGS = (
    "open",
    "uncovered",
    "read-otherwise",
    "head-differs",
    "dead",
    "dead-pattern",
    "overruled",
    "unreached",
    "unserved",
    "escaped",
    "login-needs",
    "unknown-role",
    "unheld-role",
    "unused-role",
)
# Why a kind of findings is not looked for, by its name in `unsearched`.
UNSEARCHED = {
    "overruled": "overruled constraints, since a pattern has more than 16 constraints or 16 named methods",
    "unserved": "unserved patterns, since there are more than 2000 patterns",
}
# What names a finding, by the first of its members that is there.
SUBJECTS = "pattern", "role", "path", "constraint"


def shown(text):
    """A text as reports show it: control characters are visible, and backslashes double."""
    return "".join(
        "\\\\"
        if it == "\\"
        else f"\\x{ord(it):02x}"
        if ord(it) < 32 or 127 <= ord(it) < 160
        else it
        for it in text
    )


def methods_of(group):
    names = ", ".join(map(shown, group["methods"]))
    return names if not group["others"] else "others" if names else "all"


def entry_of(group):
    """Who may enter or, for a viewer, whether the viewer may."""
    who = WHO[group["because"]][0].format(", ".join(map(shown, group["roles"])))
    if group["viewerEnters"] is None:
        return who
    why = who[len("nobody (") : -1] if who.startswith("nobody (") else who
    return "yes" if group["viewerEnters"] else f"no ({why})"


def cell_of(group):
    """The cell of a group: its kind, its methods, what it shows, and how its explanation ends."""
    methods, line = methods_of(group), group["line"]
    place = "" if line is None else f", line {line}"
    ending = "." if group["constraint"] is None else f" Constraint: {group['constraint']}{place}."
    # A cell that the viewer may not enter looks as one that nobody may enter.
    kind = "nobody" if group["viewerEnters"] is False else WHO[group["because"]][1]
    return kind, methods, f"{methods} {entry_of(group)}", ending


def fixed_cell(kind, methods, who):
    return kind, methods, f"{methods} {who}", "."


def hidden_cell(context):
    return fixed_cell("hidden", "all", "no (hidden)" if context["viewer"] else "nobody (hidden)")


def cells_of(context, row):
    """The cells of a row."""
    if row["reach"] == "hidden":
        return [hidden_cell(context)]
    if row["reach"] == "elsewhere":
        return [fixed_cell("hidden", "all", f"context {shown(row['context'])}")]
    if row["reach"] == "unmatched":
        return [fixed_cell("hidden", "all", "no request")]
    return [cell_of(it) for it in row["groups"]]


def pattern_of(row):
    return "other paths" if row["pattern"] is None else shown(row["pattern"]) or '""'


def answers_of(row):
    """What answers the paths of a row, or its example if that is not listed."""
    if row["reach"] != "reached":
        return ""
    if row["answers"] is None:
        servlet = row["servlet"]
        by = "files" if servlet is None else f"servlet {shown(servlet)}"
        return "" if row["example"] is None else f"{by}, .."
    names = [f"servlet {shown(it)}" for it in row["answers"]["servlets"]]
    return ", ".join(names + ["files"] * row["answers"]["files"])


def paths_of(row):
    """The example of a row, and the patterns that are chosen before it."""
    if row["reach"] != "reached":
        return ""
    parts = [] if row["example"] is None else [f"such as {row['example']}"]
    narrower = [shown(it) or '""' for it in row["narrower"]]
    if narrower:
        parts.append("except " + ", ".join(narrower + [".."] * (not row["narrowerComplete"])))
    return "; ".join(parts)


def shared(contexts):
    """The contexts, each with how many of its rows and findings the page shows: the first ones of all."""
    rows, findings = MAX_ROWS, MAX_FINDINGS
    for it in contexts:
        it["shownRows"] = min(rows, len(it["rows"]))
        it["shownFindings"] = min(findings, len(it["findings"]))
        rows -= it["shownRows"]
        findings -= it["shownFindings"]
    return contexts


def rows_of(context):
    """The rows of a table: the pattern, the paths, what answers them, and the cells."""
    for row in context["rows"][: context["shownRows"]]:
        yield pattern_of(row), paths_of(row), answers_of(row), cells_of(context, row)
    yield ", ".join(context["hidden"]), "", "", [hidden_cell(context)]
    if context["loginPost"]:
        yield "*/j_security_check", "", "", [fixed_cell("post", "POST", "login post")]
    # Their paths are within the context, as patterns are.
    own = context["context"].rstrip("/")
    for other in context["otherContexts"]:
        yield f"{other}/*", "", "", [fixed_cell("hidden", "all", f"context {shown(own + other)}")]


def notes_of(context):
    """The notes below a table."""
    groups = [group for row in context["rows"] for group in row["groups"]]
    needs_tls = any(it["because"] == "transport" for it in groups)
    note = "Some requests need TLS: --secure shows who enters then, and its findings."
    return [note] * needs_tls + row_notes(context)


def row_notes(context):
    """The note on rows that are not shown."""
    shown_rows, count = context["shownRows"], len(context["rows"])
    if shown_rows == count:
        return []
    if not shown_rows:
        return [f"None of its {count} rows are shown: the page shows {MAX_ROWS} rows at most."]
    return [f"Only the first {shown_rows} of {count} rows are shown."]


def listed_findings(contexts):
    """The findings that the page lists: the most dangerous kind of all contexts first, and within it in the order of the contexts."""
    listed = [
        (context, it) for context in contexts for it in context["findings"][: context["shownFindings"]]
    ]
    listed.sort(key=lambda found: FINDINGS.index(found[1]["kind"]))
    return listed


def findings_of(contexts):
    """The findings that the page lists: the class, the context, and what the text has."""
    for context, it in listed_findings(contexts):
        subject = next(it[name] for name in SUBJECTS if it.get(name) is not None)
        words = [shown(subject) or '""' if isinstance(subject, str) else str(subject)]
        if it["line"] is not None:
            words.append(f" ({shown(context['file'])}:{it['line']})")
        yield "accepted" if it["accepted"] else "finding", context["context"], words


def finding_notes(contexts):
    """The notes before the findings, and what is said if there are none."""
    notes = []
    for it in contexts:
        path, count, listed = it["context"], len(it["findings"]), it["shownFindings"]
        if listed == 0 < count:
            limit = f"the page lists {MAX_FINDINGS} findings at most"
            notes.append(f"None of the {count} findings of {path} are listed: {limit}.")
        elif listed < count:
            notes.append(f"Only the first {listed} of {count} findings of {path} are listed.")
        notes += [f"Not looked for in {path}: {UNSEARCHED[kind]}." for kind in it["unsearched"]]
    return notes + ["There are no findings."] * (not any(it["findings"] for it in contexts))
