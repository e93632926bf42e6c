"""What answers in place of the program, on the tables and the judge of `replay/`: operators with
their servers, notes and policies, whatever caches may hold, and what comes next. No text of the
crates is in it."""
