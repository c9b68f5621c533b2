"""Runs of daikon in parts: the modules of tools/shards."""
