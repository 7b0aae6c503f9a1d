"""Suites that compare the program with a second reading of a document, on random inputs."""
