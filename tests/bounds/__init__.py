"""The limits of the update, each with its last good value and the first one beyond it; bounds.tsv lists all."""
import fixtures

__all__ = ["fixtures"]  # it puts the package of the update on the path
