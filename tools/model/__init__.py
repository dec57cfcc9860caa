"""A model of `instants-lines`, written from docs/DEFINITIONS.md and the definitions in crates/*/specs, and not from the code.

It is slow and plain, and stands on Python's standard library alone. `lines.py` has what a whole run writes.
"""
