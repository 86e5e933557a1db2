"""Code for the tests: the base class of all tests, and servers, clients, drives, reels and what is wanted of them."""
