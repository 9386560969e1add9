"""Bids as people write them, in tables and single files, as the files that `ice` reads."""
