"""A script that is run with a record of each line: its reply, and what it did to the rows."""
