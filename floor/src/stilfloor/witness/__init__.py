"""Random programs, netlists and plans, each run by the simulator beside the program: a witness over what nobody thought of."""
