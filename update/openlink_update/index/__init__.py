"""The index of a version, by which the front door finds titles."""

__all__ = [
    "abbreviations",
    "named_parts",
    "target_heads",
    "title_addresses",
    "title_groups",
    "title_index",
    "title_rows",
    "titles",
]
