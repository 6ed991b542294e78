"""Rules that ship, lines of targets that name them, proxies before links, and what heads of rules say to readers."""
