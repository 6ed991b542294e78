"""The commands of the operator. The scripts beside the package call the `main` of each."""

__all__ = ["counts", "desk", "holdings", "library", "update"]
