"""The front door: its module in njs, and its site in an nginx of its own before several processes of the program."""
