"""What one reader, or one client of the network, can take from the others."""
