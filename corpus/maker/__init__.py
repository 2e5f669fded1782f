"""The maker of the corpus: zones, keys, messages and cases."""
