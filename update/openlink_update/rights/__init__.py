"""What a run of root does as a user without rights: all that reads bytes of providers."""

__all__ = ["filters", "handover", "lent_files", "limits", "sandbox"]
