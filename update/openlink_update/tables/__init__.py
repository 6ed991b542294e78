"""Holdings tables: as they come, prepared, and as they are served."""

__all__ = [
    "cells",
    "check_digits",
    "coverage",
    "date_order",
    "dropped_rows",
    "embargo",
    "identifiers",
    "link_hosts",
    "parts",
    "preparation",
    "registry",
    "row_changes",
    "row_dates",
    "table",
]
