"""The checks of the built programs from outside. `python3 -m tests` runs them."""
