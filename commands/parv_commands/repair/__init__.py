"""parv-repair: makes the files of a set complete."""
