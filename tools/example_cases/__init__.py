"""The tests of tools/examples."""
