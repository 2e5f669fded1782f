"""The groups of the corpus, one module each, with a function `add` that adds its cases."""
