"""What tests/repository.py checks, a file for each subject. Every check takes the repository's root and the list that faults are added to, and
returns how many things it looked at."""
