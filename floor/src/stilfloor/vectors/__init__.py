"""Vectors of simulations and tables as STIL texts."""
