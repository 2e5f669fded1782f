"""The exporters of the corpus: each writes a case as a test for a validator's own test tool."""
