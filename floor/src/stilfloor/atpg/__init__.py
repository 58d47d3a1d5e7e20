"""Scan tests of a netlist: loads by chance and by SAT, and proofs that some faults can't be found."""
