"""The events of runs and chains, made again one after another."""
