"""What the commands written in Python share."""
