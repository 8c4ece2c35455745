"""Debian's packages of the program, in a clean Debian beside a real KDC."""
