"""Modules that the scripts share: kept proofs, and mutants that are tried over them."""
