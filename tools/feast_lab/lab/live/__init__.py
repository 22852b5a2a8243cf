"""A chain at work, shown in a browser."""
