"""Refusals in words, with a hint at what there is instead."""
