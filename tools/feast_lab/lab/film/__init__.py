"""The moments of runs and chains, played again, and films of them."""
