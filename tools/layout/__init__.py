"""The modules of tools/lay_out: words, trees of words, lines of trees, and files."""
