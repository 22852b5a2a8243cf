"""Many runs over values and seeds."""
