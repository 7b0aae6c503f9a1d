"""What the suites share: a server and its clients, policies, requests, and how a check is counted."""
