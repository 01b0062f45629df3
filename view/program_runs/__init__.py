"""What the commands that run `uc` share: its options, the program, and certificates that are written whole."""
