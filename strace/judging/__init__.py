"""Runs a script by uxrun, and lays its replies beside the kernel's."""
