"""The librarian's desk: pages of the week, the year, the collection and the rules of a library, which nginx serves as
files."""

__all__ = ["writing"]
