"""A journal of an iterative combinatorial exchange as one page to look at."""
