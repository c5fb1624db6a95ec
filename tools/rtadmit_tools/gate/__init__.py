"""Whether a change of the program, its proofs or its pages holds; the gate calls most of these."""
