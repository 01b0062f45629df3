"""Prices for all schedules of an instance: of several tables the one whose uplifts at the root of the tree are the least."""
