"""Several libraries on a machine, and several machines."""

__all__ = ["libraries", "library_files", "library_updates", "machines", "receiving", "taking"]
