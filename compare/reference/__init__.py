"""A second, small reference of the layer's answers, with one switch for each rule by which Linux answers otherwise.

With all switches off it answers as uxrun does, with all on as Linux does; it follows crates/ux_model/specs and
docs/calls.md for the one, and net/unix/af_unix.c, net/core/scm.c and fs/pipe.c of Linux for the other.
"""
