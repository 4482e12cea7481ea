"""The parts of ./keeper; main.py has the table of the commands."""
