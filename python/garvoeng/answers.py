"""What a host's functions may return: `verify`, `is_registered` and `credential`."""
from __future__ import annotations

import inspect
from contextvars import ContextVar
from functools import partial
from typing import TYPE_CHECKING, Any, Awaitable, Callable, List, NoReturn, Optional, Tuple, TypeVar, Union

if TYPE_CHECKING:
    import asyncio

Answered = TypeVar("Answered")
Verify = Callable[[int, bytes, bytes, bytes, bytes], Union[bool, Awaitable[bool]]]

_LOOP: "ContextVar[Optional[asyncio.AbstractEventLoop]]" = ContextVar("garvoeng_loop", default=None)


def kind_of(value: Any) -> str:
    """The kind of a value, with its article."""
    name = type(value).__name__
    return "None" if value is None else f"{'an' if name[:1].lower() in tuple('aeiou') else 'a'} {name}"


def refuse(what: str, said: Any, wanted: str, awaited_in: str = "the call whose name ends in _async") -> NoReturn:
    """Raises TypeError. A coroutine is closed, so that nobody is warned that it was never awaited."""
    advice = f"; a function that is awaited belongs in {awaited_in}" if awaited_in and inspect.isawaitable(said) else ""
    if inspect.iscoroutine(said):
        said.close()
    raise TypeError(f"{what} answered {kind_of(said)}, and not {wanted}{advice}")


def is_true(what: str, said: Any) -> bool:
    """The value, if it is True or False. Raises TypeError for any other."""
    if said is True or said is False:
        return bool(said)
    refuse(what, said, "True or False")


async def awaited(said: Any) -> Any:
    """Awaits the value if it can be awaited."""
    return await said if inspect.isawaitable(said) else said


class _Asked(Exception):
    """An answer has to be awaited before the verdict can go on."""


async def judged(verify: Verify, judge: Callable[[Verify], Answered]) -> Answered:
    """Runs `judge` with `verify`, and awaits what `verify` returns if it can be awaited. `judge` is then called again, with that answer for
    the same signature."""
    asked: List[Tuple[Tuple[Any, ...], Awaitable[Any]]] = []

    def first(*words: Any) -> Any:
        said = verify(*words)
        if not inspect.isawaitable(said):
            return said
        asked.append((words, said))
        raise _Asked

    try:
        return judge(first)
    except _Asked:
        [(words, said)] = asked
    answer = await said
    return judge(lambda *again: answer if again == words else False)


# ---- calls that wait in a thread

def _called(loop: asyncio.AbstractEventLoop, call: Callable[[], Answered]) -> Answered:
    _LOOP.set(loop)
    return call()


async def in_thread(call: Callable[..., Answered], *words: Any, **named: Any) -> Answered:
    """Makes a call in a thread of the loop. What `verify` returns there is awaited by the loop, if it can be."""
    import asyncio  # which takes longer to import than all else that a site without a loop has
    return await asyncio.to_thread(_called, asyncio.get_running_loop(), partial(call, *words, **named))


def loop_of_call() -> Optional[asyncio.AbstractEventLoop]:
    """The loop that waits for this call, within `in_thread`."""
    return _LOOP.get()


def waiting(verify: Verify) -> Verify:
    """`verify` in the form that a call takes: within `in_thread`, one that waits for the loop."""
    loop = loop_of_call()
    if loop is None:
        return verify
    waits: Verify = partial(_waited, loop, verify)
    return waits


def _waited(loop: asyncio.AbstractEventLoop, verify: Verify, *words: Any) -> Any:
    import asyncio
    said = verify(*words)
    return asyncio.run_coroutine_threadsafe(awaited(said), loop).result() if inspect.isawaitable(said) else said
