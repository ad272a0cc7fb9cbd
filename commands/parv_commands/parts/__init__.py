"""parv-parts: searches for slices a part at a time."""
