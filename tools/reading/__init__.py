"""Holds docs/READING.md against the definitions of specs/ on which the headline clause rests."""
