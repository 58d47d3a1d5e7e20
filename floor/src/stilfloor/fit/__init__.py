"""Texts that ATPG tools write, made ones of the profile that the program `stil` reads; where the test would change, it stops.

A text is cut into tokens and a tree of statements, without meaning. Rules then edit the tokens, each with the reason why the test
stays the same, or stop with the reason why it wouldn't. The number of lines stays. What the outcome means is asked of the program.
"""
