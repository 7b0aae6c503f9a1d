"""What the suite of security tries within its container, as root, with nothing but python3 and tests/studio."""
