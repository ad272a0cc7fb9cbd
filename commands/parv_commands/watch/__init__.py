"""parv-watch: verifies a folder in which files are still arriving."""
