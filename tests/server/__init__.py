"""Suites that try one program: a server, the commands, and the files of both."""
