"""Warnings of element files that the program accepts."""
