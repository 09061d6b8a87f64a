"""What tools/write_editors and tools/try_editors share: the table of words, and what is made from it."""
