"""parv-progress: runs parv, and shows how much it has read."""
