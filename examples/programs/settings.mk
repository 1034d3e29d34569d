# The device of this repository, and what libgomp of GCC 12 does otherwise on it.
DEVICE = ../../device/out
KNOWN = libgomp.txt
