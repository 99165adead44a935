"""The constants, errors and lines of `raspcream.h11`, which the extension takes from here."""

STATES = (
    "IDLE", "SEND_RESPONSE", "SEND_BODY", "DONE", "MUST_CLOSE", "CLOSED", "ERROR", "MIGHT_SWITCH_PROTOCOL", "SWITCHED_PROTOCOL",
)


class _Word(type):
    """A constant with a name. Programs for h11 ask `type(event) is NEED_DATA`, so each is its own type."""

    def __new__(cls, name: str) -> "_Word":
        word = super().__new__(cls, name, (cls,), {})
        word.__class__ = word  # type: ignore[assignment]
        return word

    def __init__(self, name: str) -> None:
        pass

    def __repr__(self) -> str:
        return self.__name__


CLIENT, SERVER = _Word("CLIENT"), _Word("SERVER")
NEED_DATA, PAUSED = _Word("NEED_DATA"), _Word("PAUSED")
IDLE, SEND_RESPONSE, SEND_BODY, DONE, MUST_CLOSE, CLOSED, ERROR, MIGHT_SWITCH_PROTOCOL, SWITCHED_PROTOCOL = map(_Word, STATES)


class ProtocolError(Exception):
    """A rule of HTTP is broken; `error_status_hint` is the status of an answer to it."""

    def __init__(self, msg: str, error_status_hint: int = 400) -> None:
        super().__init__(msg)
        self.error_status_hint = error_status_hint


class LocalProtocolError(ProtocolError):
    """By us."""


class RemoteProtocolError(ProtocolError):
    """By the peer."""


class Headers(list[tuple[bytes, bytes]]):
    """Lines as pairs of a name in lower case and a value."""

    __slots__ = ()

    def raw_items(self) -> list[tuple[bytes, bytes]]:
        """The lines with their names as the caller wrote them; those that came have them in lower case."""
        return list(self)


class WrittenHeaders(Headers):
    """Lines of a caller that has capitals in a name. The extension sets `raw`."""

    __slots__ = ("raw",)
    raw: list[tuple[bytes, bytes]]

    def raw_items(self) -> list[tuple[bytes, bytes]]:
        return list(self.raw)
