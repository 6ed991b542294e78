"""The index of titles that the update makes, and the front door's searches of it."""
