"""What tools/make_batch is made of: a subject a file."""
