"""How the acts make their calls: at once, or awaited. The acts are written once, with `await` before each call."""
from __future__ import annotations

from typing import Any, Callable, Coroutine, Protocol, TypeVar

from ..answers import awaited, in_thread

Answered = TypeVar("Answered")


class Calls(Protocol):
    """How calls are made."""

    async def of(self, owner: Any, name: str, *words: Any, **named: Any) -> Any:
        """Calls a server or a store."""

    async def site(self, function: Callable[..., Any], *words: Any) -> Any:
        """Calls one of the site's functions, in the thread of the request."""


class AtOnce:
    """Calls that are not awaited."""

    async def of(self, owner: Any, name: str, *words: Any, **named: Any) -> Any:
        return getattr(owner, name)(*words, **named)

    async def site(self, function: Callable[..., Any], *words: Any) -> Any:
        return function(*words)


class Awaited:
    """Calls from a loop: the awaited form of a call, if it has one, and otherwise a thread of the loop. What the site's functions return is
    awaited if it can be."""

    async def of(self, owner: Any, name: str, *words: Any, **named: Any) -> Any:
        form = getattr(owner, f"{name}_async", None)
        return await (form(*words, **named) if form is not None else in_thread(getattr(owner, name), *words, **named))

    async def site(self, function: Callable[..., Any], *words: Any) -> Any:
        return await awaited(function(*words))


AT_ONCE, AWAITED = AtOnce(), Awaited()


def at_once(act: Coroutine[Any, Any, Answered]) -> Answered:
    """The result of an act whose calls are made at once, so that it never waits."""
    try:
        act.send(None)
    except StopIteration as done:
        value: Answered = done.value
        return value
    finally:
        act.close()
    raise RuntimeError("an act waited, although its calls are made at once")
