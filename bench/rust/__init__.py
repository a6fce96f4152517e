"""Turns the program into Rust and compiles it without proofs. bench/unproved is the command."""
