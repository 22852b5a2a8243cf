"""What all of the lab stands on: errors, files, limits, seeds, progress, and calls of the program."""
