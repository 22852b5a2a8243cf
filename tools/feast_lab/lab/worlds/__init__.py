"""How worlds are made: from drawings, patterns and random fills."""
