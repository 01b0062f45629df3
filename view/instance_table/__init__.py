"""A table of many instances, from runs of `uc solve`."""
