"""Evaluates the definitions of crates/*/specs: a case is true where antt computes both sides of its statement alike."""
