"""Reads logs of strace: lines, calls, the words of a call's arguments, and what record wrote at the head."""
