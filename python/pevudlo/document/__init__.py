"""A text that is held in step with a running book, and a view of it beside an editor."""
