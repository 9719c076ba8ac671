"""A script that is run, with what came of each line: in words, or as JSON."""
