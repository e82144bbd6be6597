"""What a file is: the verdicts of dwg-check, and its table."""
