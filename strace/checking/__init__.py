"""Records real programs, and compares what is said of them with /proc."""
