"""Programs that make packet files, and other files on which parv runs."""
