"""What people install: the wheel and the sdist for Python, and what `make install` has for those who build over the library."""
