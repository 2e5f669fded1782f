"""The runners of the corpus: each hands its cases to a validator and writes down what that says."""
