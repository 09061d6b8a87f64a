"""Damages to programs that compile, and the slips of people, for `damage_programs` and `try_slips`."""
