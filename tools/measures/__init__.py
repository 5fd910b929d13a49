"""Measures. Each is one file, which `./check measure` finds by its name, and has the same shape as a check."""
