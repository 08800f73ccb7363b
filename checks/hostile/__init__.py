"""What chance, damage and strangers do to the program."""
