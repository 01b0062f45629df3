"""What a line of the error output of `uc` means, with the place in the file and the value there."""
