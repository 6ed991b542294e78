"""Several libraries on one machine: what is added, updated in turns, shared, removed and restored."""
