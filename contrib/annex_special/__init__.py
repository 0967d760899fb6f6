"""The modules of `annex-special`."""
