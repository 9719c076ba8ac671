"""Numbers as grids and pictures, in text and in HTML, and text that shows each of its signs."""
