"""Trials of the programs with hostile inputs: what tools/torture is made of."""
