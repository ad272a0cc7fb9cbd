"""Reads the sources of the crates, and finds where they return out of memory and where they ask for capacity."""
