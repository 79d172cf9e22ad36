"""The pages that `scripts/generate` writes, a module each."""
