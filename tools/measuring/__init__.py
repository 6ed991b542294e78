"""Copies of the repository, the tests that run in them, and the lines that these run. tools/coverage and tools/plant
use it."""
