"""Comparisons of the sources, the documents and the scripts with each other. They need neither proofs nor the
program."""
