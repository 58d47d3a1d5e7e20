"""Coverage of stuck nets: found for sure, found by an unknown level alone, refuted, open, and why."""
