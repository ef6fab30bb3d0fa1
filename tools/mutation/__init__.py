"""What tools/mutants reads."""
