"""The commands of the program: their arguments, files and requests, and what they print, byte for byte."""
