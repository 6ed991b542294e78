"""The front door and the processes of a library."""

__all__ = ["front_door", "names_file", "probes", "probing", "processes", "targets_file", "words_file"]
