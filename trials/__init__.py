"""Wrong bodies, which the prover or a test has to refuse."""
