"""A second implementation of the whole report, written apart from the program, to compare it with."""
