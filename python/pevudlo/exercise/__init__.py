"""Exercises: files whose looks are compared with what is wanted, and what a solution gives with the same input data."""
