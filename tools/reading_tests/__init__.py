"""Tests of the check that holds docs/READING.md against the definitions of specs/."""
