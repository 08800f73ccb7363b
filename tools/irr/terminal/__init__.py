"""What people see: texts, passwords that are asked for, pictures."""
