"""What the client of pages is told, and its files: rows, values as bytes, and words. It draws them in a browser."""
