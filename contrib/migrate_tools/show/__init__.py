"""What is told of a plan."""
