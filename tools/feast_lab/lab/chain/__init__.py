"""Runs as long as you like, as chains of calls that a folder keeps."""
