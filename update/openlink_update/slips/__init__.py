"""Slips of providers that harm readers: seen by numbers in the week in which they come."""

__all__ = ["kinds", "material", "odd_rows", "other_titles", "slip_judge"]
