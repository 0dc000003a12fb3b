"""The pages of docs/reference/: one module for each, and `source` for what they read."""
