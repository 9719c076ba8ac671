"""An editor at a program of several people: the lines that all share, in step with the editor's text."""
