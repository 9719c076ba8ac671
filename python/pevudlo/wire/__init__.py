"""The program and the library: where they are, and how they are asked."""
