"""Hostile packet files, and programs that run parv over them."""
