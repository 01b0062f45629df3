"""The instance of the hours behind a schedule, from the state in which it leaves each unit."""
