"""Functions that are generated for a class, so that each of its attributes is read or written without a loop and without a call."""

from __future__ import annotations

from typing import Any, Callable, Dict, Iterable


def function(of: Any, head: str, lines: Iterable[str], known: Dict[str, Any]) -> Callable[..., Any]:
    """Returns the function of a class with this head and these lines, in which these names are known."""
    source = "\n".join([head, *(f"    {line}" for line in lines)])
    names = dict(known)
    exec(compile(source, f"<{head[4:-1]} of {of.__name__}>", "exec"), names)
    made: Callable[..., Any] = names[head[4 : head.index("(")]]
    return made
