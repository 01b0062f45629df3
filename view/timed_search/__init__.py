"""Runs of `uc solve` with growing budgets, until the time is over."""
