"""What is measured: of the atoms of a plane, and of how far its tiles were apart."""
