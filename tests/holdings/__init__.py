"""Holdings: what the update makes of the tables of providers, fetches them, and writes for others."""
