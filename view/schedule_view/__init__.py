"""A picture and a table of a schedule, from the files that `uc` reads and writes."""
