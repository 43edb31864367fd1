"""What is no command: what the scripts share."""
