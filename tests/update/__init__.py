"""The update, in good weeks and bad ones, on full disks, and with runs that are killed at any moment."""
