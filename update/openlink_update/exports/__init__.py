"""A library's holdings for others."""

__all__ = ["export_files", "site_names"]
