"""Tests of the package. Those that need the built program take the one that BUSKELD_PROGRAM names, or the one in its place
in the repository, and are skipped where there is none."""
