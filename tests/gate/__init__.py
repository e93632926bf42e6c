"""The gate, which runs the tests, and what it checks of the pages, sources and types."""
