"""`paris help`: the pages, and what the reference says of a word, in a terminal."""
