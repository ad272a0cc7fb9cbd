"""Independent programs that read packet files. They take nothing from the programs that make packet files."""
