"""Tests of the built program from outside: what it writes, and what peers of its servers are sent (`./check outside` runs them)."""
import resource

# Some hold hundreds of connections, and a server says so where it is given fewer descriptors than it may need.
DESCRIPTORS = 8192
soft, hard = resource.getrlimit(resource.RLIMIT_NOFILE)
if 0 <= soft < DESCRIPTORS:
    resource.setrlimit(resource.RLIMIT_NOFILE, (DESCRIPTORS if hard < 0 else min(hard, DESCRIPTORS), hard))
