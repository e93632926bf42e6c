"""What the program answers to scripts, their notes and policies."""
