"""Bugs that tools/plant plants, and the tests that should see them."""
