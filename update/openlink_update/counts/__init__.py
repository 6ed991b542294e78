"""What the front door's logs hold, counted by month, beside what titles cost and what providers count."""

__all__ = [
    "count_tables",
    "counter_reports",
    "costs",
    "log_counts",
    "log_files",
    "side_by_side",
    "wanted_titles",
    "workbook",
]
