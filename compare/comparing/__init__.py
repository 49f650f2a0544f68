"""The programs of compare/: they run scripts by uxrun, by the reference and on Linux, and lay the traces side by side."""
