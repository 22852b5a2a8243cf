"""What the program reads and writes: worlds, reports, atoms and their members."""
