"""`paris live`: a page on which a program is edited and run."""
