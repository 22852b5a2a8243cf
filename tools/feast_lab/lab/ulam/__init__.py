"""Element files, read into trees, with what their names, types and numbers are."""
