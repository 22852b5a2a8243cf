"""A lab beside the program: it calls the program, and reads and writes its files."""
