"""The library: at its border in C, by its packages for Rust, Python and Go, on ARM, and as it is
installed."""
