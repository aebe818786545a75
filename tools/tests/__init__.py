"""The tests of the tools, and of the program where it is given; tools/test runs them."""
