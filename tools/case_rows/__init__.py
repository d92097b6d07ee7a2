"""The streams and command lines of stored cases that tools/make_cases makes."""
