"""What ./compare, tests/ and tools/ import to hold our programs against the model and the C peer; see README.md."""
