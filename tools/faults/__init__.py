"""Injected bugs, and the programs that inject them and run what must notice them."""
