"""What compiles the sources without proofs."""
