"""A certificate of a schedule that was found by parts, with a bound of the whole."""
