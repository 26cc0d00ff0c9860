"""Measurements of the programs beside their yardsticks."""
