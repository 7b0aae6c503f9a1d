"""Suites that try a site: the program with Git LFS, nginx, sshd, a browser, or a package on a whole machine."""
