"""Fetching the tables of providers."""

__all__ = ["fetch_folder", "fetching", "sources"]
