"""parv-tree: verifies each set below a folder."""
