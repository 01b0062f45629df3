"""A look at instances for data that is taken, and may not be meant."""
