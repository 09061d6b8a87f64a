"""The modules of tools/believed_definitions: files of definitions as their parts."""
