"""What a call asks for, checked: a wrong argument is told by its name, with what is wanted in its place."""

from __future__ import annotations

import os
from collections.abc import Iterable, Mapping

from ._asked import Asked, Disk, entries, given
from ._light import TYPE_CHECKING, NamedTuple
from ._limits import Limits

if TYPE_CHECKING:
    from typing import AbstractSet, Any, Callable, Optional, Protocol, TypeVar, Union

    from ._asked import Bytes

    Path = Union[str, os.PathLike[str]]
    Key = TypeVar("Key", covariant=True)
    Value = TypeVar("Value", covariant=True)

    class MappingFrom(Protocol[Key, Value]):
        """A mapping. `MappingFrom[Path, Bytes]` takes keys that are texts, path objects or both; `Mapping[Path, Bytes]`
        takes only a mapping whose keys are said to be either."""

        def items(self) -> AbstractSet[tuple[Key, Value]]: ...

    Source = Union[Bytes, Path]
    Read = Callable[[str], Optional[Bytes]]

TEXT_PATH = b"-"
STANDARD = Limits()


class Request(NamedTuple):
    """What a call asks for.

    Attributes:
        main: the main text, where it is given and not its path alone.
        tells_sources: whether the sources are told that were opened.
    """

    path: bytes
    main: bytes | None
    folders: list[bytes]
    definitions: list[tuple[bytes, bytes]]
    limits: Limits
    origins: bool
    asked: Asked
    tells_sources: bool


def _wrong(name: str, wanted: str, value: object) -> TypeError:
    return TypeError(f"{name} must be {wanted}, not {type(value).__name__}")


def _utf_8(name: str, text: str) -> bytes:
    try:
        return text.encode()
    except UnicodeEncodeError as error:
        raise UnicodeError(f"{name} must be text that UTF-8 can write, and {text!r} isn't") from error


def _path_text(name: str, value: Any) -> str:
    """A path, as a text."""
    path = os.fspath(value) if isinstance(value, os.PathLike) else value
    if not isinstance(path, str):
        raise _wrong(name, "a path (str or os.PathLike of str)", value)
    return path


def _path(name: str, value: Any) -> bytes:
    """A path, as UTF-8."""
    return _utf_8(name, _path_text(name, value))


def _main(source: Any) -> tuple[bytes, bytes | None]:
    """The path of the main text, and that text where it is given."""
    if isinstance(source, (bytes, bytearray, memoryview)):
        return TEXT_PATH, bytes(source)
    if not isinstance(source, (str, os.PathLike)):
        raise _wrong("source", "a path (str or os.PathLike) or a text (bytes)", source)
    return _path("source", source), None


def _folders(include_dirs: Any) -> list[bytes]:
    if not isinstance(include_dirs, (list, tuple)):
        if isinstance(include_dirs, (str, bytes, os.PathLike)):
            raise TypeError(f"include_dirs must be a list of paths, not one path: write [{include_dirs!r}]")
        if not isinstance(include_dirs, Iterable):
            raise _wrong("include_dirs", "a list of paths", include_dirs)
    return [_path(f"include_dirs[{place}]", folder) for place, folder in enumerate(include_dirs)]


def _definitions(defines: Any) -> list[tuple[bytes, bytes]]:
    if defines is None:
        return []
    if not isinstance(defines, Mapping):
        raise _wrong("defines", "a mapping from names to bodies", defines)
    made = []
    for name, body in defines.items():
        if not isinstance(name, str):
            raise _wrong(f"the name {name!r} in defines", "a str", name)
        if not isinstance(body, str):
            raise _wrong(f"defines[{name!r}]", "a str", body)
        made.append((_utf_8("a name in defines", name), _utf_8(f"defines[{name!r}]", body)))
    return made


def _path_objects(files: Mapping[Any, Bytes]) -> dict[str, Any]:
    """The keys of a mapping that are path objects, by their paths. A key that is no path is refused."""
    return {_path_text("a key of files", key): key for key in list(files) if not isinstance(key, str)}


def _asked(files: Any, read: Any, limits: Limits, tells_sources: bool) -> Asked:
    """Where the sources come from."""
    if files is not None and read is not None:
        raise ValueError("files and read can't both be given")
    if files is not None:
        if not isinstance(files, Mapping):
            raise _wrong("files", "a mapping from paths to bytes", files)
        return entries(files, _path_objects(files))
    if read is not None:
        if not callable(read):
            raise _wrong("read", "a callable from a path to bytes or None", read)
        return given(read)
    return Disk(limits.source_bytes, limits.line_bytes, tells_sources)


def request_of(
    source: Source,
    include_dirs: Iterable[Path],
    defines: Mapping[str, str] | None,
    limits: Limits | None,
    origins: bool,
    files: MappingFrom[Path, Bytes] | None,
    read: Read | None,
    *,
    tells_sources: bool = True,
) -> Request:
    """What these arguments ask for.

    Args:
        tells_sources: whether the sources are told that were opened.

    Raises:
        TypeError, ValueError, UnicodeError, LimitError: an argument isn't one.
    """
    if limits is None:
        limits = STANDARD
    elif not isinstance(limits, Limits):
        raise _wrong("limits", "an rdlpp.Limits", limits)
    else:
        limits.check()
    if not isinstance(origins, bool):
        raise _wrong("origins", "a bool", origins)
    path, main = _main(source)
    asked = _asked(files, read, limits, tells_sources)
    return Request(path, main, _folders(include_dirs), _definitions(defines), limits, origins, asked, tells_sources)
