"""Folders of crates that no list has, which nothing would prove or run.

`rt ci` refuses those of `crates/` too, but only where it begins, which is long after they were made.
"""

from __future__ import annotations

from checks.kit import Repository


def in_repository(repository: Repository) -> list[str]:
    """The crates that have sources and are not listed."""
    proved = [it for it in (repository.root / "crates").glob("*") if (it / "src").is_dir()]
    tried = [it for it in (repository.root / "tests").glob("*") if it.is_dir()]
    missed = [it.name for it in proved if it.name not in repository.proved]
    return sorted(missed + [it.name for it in tried if it.name not in repository.tried])
