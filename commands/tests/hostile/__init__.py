"""Hostile runs of commands, made from a seed: python3 -m tests.hostile repair|rescue SEED NUMBER [CLASS]."""
