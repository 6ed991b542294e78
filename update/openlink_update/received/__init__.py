"""The files of providers as they came: archives, texts, and the lines and cells below a header. It needs no other part
of the package but its outcome and shown_text, so that to fetch a file loads few modules."""

__all__ = ["archives", "column_names", "headers", "patterns", "reading"]
