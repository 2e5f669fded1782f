"""Explains sessions of the bench: what each event says, and why.

A session runs three times. `denialbench` prints a line for each event (bench.py). The library for C publishes the zone, which gives
the messages and DS sets (replay.py), and judges them (library.py). And this program judges once more by itself, from the RFCs and the
octets alone (judgements.py): it finds the signatures that are tried, the names that are hashed and the records that decide, and says
so wherever bench or library say otherwise. docs/use/SESSIONS.md shows what is printed.
"""
