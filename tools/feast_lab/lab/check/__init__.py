"""What is said of refusals beside their line."""
