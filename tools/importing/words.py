"""What several elements have in common: words for people, truth values, parameters."""
from __future__ import annotations

import re

from .elements import shortened
from .toml import Value
from .told import Rank, Told, on_one_line
from .tree import Element

Table = dict[str, Value]
# More digits fit into no number of the program.
MAX_DIGITS = 18
_WHOLE = re.compile(rf"[-+]?[0-9]{{1,{MAX_DIGITS}}}")


def words(element: Element) -> Table:
    """The words for people of an element, which a descriptor of this program may have in every table. Those of parameters are separate."""
    descriptions = [on_one_line(text) for text in element.texts("description")]
    for param in element.all("init-param"):
        descriptions += [
            f"{param.text_of('param-name')}: {on_one_line(text)}"
            for text in param.texts("description")
        ]
    names = [on_one_line(text) for text in element.texts("display-name")]
    kept = {"description": descriptions, "display-name": names}
    return {
        key: texts[0] if len(texts) == 1 else list(texts) for key, texts in kept.items() if texts
    }


def truth(element: Element, name: str, default: bool, told: Told) -> bool:
    """The truth value of a child, a true-falseType of the schemas."""
    child = element.first(name)
    if child is None:
        return default
    if child.text not in ("true", "false"):
        told.tell(
            Rank.ERROR, child.line, f"{name} {shortened(child.text)} is neither true nor false"
        )
        return default
    return child.text == "true"


def whole(element: Element, told: Told) -> int | None:
    """The number in an element, an integer of the schemas. Reports any other text."""
    if _WHOLE.fullmatch(element.text):
        return int(element.text)
    told.tell(
        Rank.ERROR,
        element.line,
        f"{element.name} {shortened(element.text)} is no whole number of at most {MAX_DIGITS} digits",
    )
    return None


def init_params(element: Element, told: Told) -> Table:
    """The table of a component's parameters, none where it has none."""
    params: Table = {}
    for param in element.all("init-param"):
        name = param.text_of("param-name")
        if not name:
            told.tell(Rank.BEHAVIOR, param.line, "a parameter without a name is not read")
        elif name in params:
            told.tell(
                Rank.BEHAVIOR,
                param.line,
                f"the parameter {name} is repeated: the first one counts",
            )
        else:
            params[name] = param.text_of("param-value")
    return {"init-param": params} if params else {}
