"""Tells what was found: reports as values, which --json prints, and as text."""
