"""How edits are tried that the prover must refuse."""
