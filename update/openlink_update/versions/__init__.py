"""The versions of a library: made from its input, judged, and kept."""

__all__ = [
    "earlier_files",
    "library",
    "making",
    "program",
    "same_files",
    "served",
    "shared_tables",
    "tables_again",
    "target_files",
    "target_list",
]
