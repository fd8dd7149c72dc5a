"""What tools/bench is made of: inputs, runs, and the tables."""
