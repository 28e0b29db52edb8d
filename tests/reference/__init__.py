"""A reference program: what `flame` has to answer, computed by the definitions alone.

It shares no code with the crates and is written for reading, not for speed: whole matrices, entrywise sums,
plain substitution, and families as a filter of all subsets. `due.due` is its one entry.
"""
