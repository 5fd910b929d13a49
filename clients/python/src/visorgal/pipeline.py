"""Requests that are sent together."""
from __future__ import annotations

from types import TracebackType
from typing import Any, Generic, TypeVar

from visorgal.connection import Connection
from visorgal.errors import Refused
from visorgal.requests import Request

T = TypeVar("T")


class Answer(Generic[T]):
    """What a request of a pipeline will be replied."""

    def __init__(self) -> None:
        self._said: Any = None

    def take(self, said: Any) -> None:
        """Takes what came."""
        self._said = said

    @property
    def is_there(self) -> bool:
        """Whether it came."""
        return self._said is not None

    def value(self) -> T:
        """The reply. A refusal is raised. A LookupError where none came: the pipeline wasn't sent yet, or its connection was lost before it."""
        if self._said is None:
            raise LookupError("no reply has come")
        if isinstance(self._said, Refused):
            raise self._said
        return self._said  # type: ignore[no-any-return]


class Pipeline:
    """Requests that are sent together once its `with` ends well, and are carried out in their order. Others may come between them. Where something is raised in its
    `with`, nothing is sent."""

    def __init__(self, connection: Connection) -> None:
        self._connection = connection
        self._asked: list[tuple[Request[Any], Answer[Any]]] = []

    def ask(self, asked: Request[T]) -> Answer[T]:
        """Adds a request. Its reply is there once the pipeline was sent."""
        answer: Answer[T] = Answer()
        self._asked.append((asked, answer))
        return answer

    def send(self) -> None:
        """Sends what was added, and takes the replies. Where the connection is lost in the middle, requests without a reply may have been carried out."""
        asked, self._asked = self._asked, []
        if not asked:
            return
        answers = iter([answer for _, answer in asked])
        self._connection.exchange([request for request, _ in asked], lambda said: next(answers).take(said))

    def __enter__(self) -> Pipeline:
        return self

    def __exit__(self, kind: type[BaseException] | None, why: BaseException | None, trace: TracebackType | None) -> None:
        if kind is None:
            self.send()
