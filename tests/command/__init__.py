"""The command. A transcript, NAME.txt, is what it prints; zones roll by it in a world of files, of
one process, or of real signers."""
