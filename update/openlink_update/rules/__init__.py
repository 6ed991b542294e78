"""Rule files: those that ship, what their heads say, and how a proxy is put before their links."""

__all__ = ["compiled", "heads", "pages", "proxies", "shipped"]
