"""parv-rescue: copies the slices of a set out of other files."""
