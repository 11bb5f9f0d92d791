"""What makes the programs, the packages and the library for C."""
