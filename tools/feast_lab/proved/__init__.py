"""Which program is run in a clone: one that was proved of the very sources that lie there.

  sources   the sources of the program, and their digest
  record    what was proved: the kit, the program and the sources
  found     where such a program may lie, which one is taken, and what is kept of that for the next call

`./feast` reads what is kept, by the line of `listing.sh`, and calls tools/proved when that doesn't hold any more.
"""
