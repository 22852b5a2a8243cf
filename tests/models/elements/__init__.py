"""The elements of the examples, written once more in Python: a module for each example."""
