"""Each growth of memory of the program, and of the tests of the crates, is refused in turn.

A growth is a call of malloc, realloc or calloc. A library that is preloaded (tests/shims/refuse.c) refuses growth number N, for
N = 1, 2, .. until a run meets no refusal, and once more so that each growth from the N-th on is refused. So every run is of the
whole program or test as it was proved and built.
"""
