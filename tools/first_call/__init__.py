"""Proves and builds the program in a clone, and runs it: what `./feast` does if no program was proved of the sources that lie
there, and for `--prove`. The order of things is in `call`; each other module says at its top what it is for."""
