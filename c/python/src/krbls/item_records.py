"""The types of what `items` lists: each object of `krbls items --json`, as docs/LISTING.md of krbls says."""

from typing import List, Literal, Optional, TypedDict, Union

from .records import Flags, RefusedInput, RefusedMessage

__all__ = ["Believed", "Fault", "Item", "ItemRecord", "ItemsEnd"]


class _Via(TypedDict, total=False):
    via: List[str]


class _Item(TypedDict):
    kind: Literal["item"]
    at: int
    depth: int
    heads: List[str]
    contents: int
    length: int
    name: str
    type: List[str]
    value: Union[int, bool, str, Flags, None]


class Item(_Item, _Via, total=False):
    value_name: Optional[str]


class _Fault(TypedDict):
    kind: Literal["fault"]
    at: int
    depth: int
    heads: List[str]
    contents: Optional[int]
    length: Optional[int]
    name: Optional[str]
    type: List[str]
    place: int
    why: int
    why_name: str
    octet: Optional[str]
    before: Optional[str]


class Fault(_Fault, _Via, total=False):
    pass


class Believed(TypedDict):
    kind: Literal["believed"]
    length: int
    octets: int


class ItemsEnd(TypedDict):
    kind: Literal["end"]
    items: int


ItemRecord = Union[Item, Fault, Believed, ItemsEnd, RefusedMessage, RefusedInput]
