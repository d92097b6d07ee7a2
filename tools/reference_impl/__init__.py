"""A reference implementation of docs/FORMATS.md: whole lists and linear searches, exact fractions, no state and no
limits. Written from that document, not from the program."""
