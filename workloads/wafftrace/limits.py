"""Limits of hierarchies, traces and plans: those of crates/waff_model/src/limits.rt, with which tests/workloads/run compares them."""

AFFINITIES = 4096
SPACES = 256
CELLS = 262144
# Of a hierarchy of format 2, in which all spaces together may have any number of cells.
LARGE_SIZE = 4294967295
LARGE_UNIT = 4294967295
OWNERS = 256
NAME = 32
# Of traces with clients, and of those of versions 1 and 2.
MESSAGES = 1048576
EARLIER_MESSAGES = 65536
OPS = 1024
EARLIER_OPS = 32
ALL_OPS = 16777216
COST = 1000000
RELEASE = 1000000000
# The pieces of all lists.
AWAITED = 4194304
THINK = 10000000
WORKERS = 64
