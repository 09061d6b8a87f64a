"""How tools/try_editors tries what is in editors/ by the programs that read it."""
