"""What the program recovers of damaged drawings, and what is said of it."""
