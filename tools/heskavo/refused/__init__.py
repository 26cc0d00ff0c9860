"""Mutants, which the prover must refuse."""
