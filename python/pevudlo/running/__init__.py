"""Rows that run beside the edits: the workers, what they tell, and edits that are taken back."""
