"""Tests of the tools around malpas: `python3 -m unittest discover -s tools` at the repository's top."""
