"""Edits that one check can tell apart."""

from __future__ import annotations

from collections.abc import Callable
from typing import TypeVar

Item = TypeVar("Item")


def groups(items: list[Item], are_apart: Callable[[Item, Item], bool]) -> list[list[Item]]:
    """The items in few groups, where each two of a group are apart. Those with the fewest partners
    come first."""
    partners = {
        place: sum(are_apart(item, other) for other in items) for place, item in enumerate(items)
    }
    found: list[list[Item]] = []
    for place in sorted(partners, key=lambda place: (partners[place], place)):
        item = items[place]
        for group in found:
            if all(are_apart(item, other) for other in group):
                group.append(item)
                break
        else:
            found.append([item])
    return found
