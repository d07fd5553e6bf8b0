"""What `dev/commands` makes of the table of commands, a module for each file, and what it compares with the table."""
