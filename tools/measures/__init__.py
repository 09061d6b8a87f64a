"""Time and memory of build/m2c and build/m2run: tools/benchmark measures them.

`command` has the words of each command. `repeats`, `large_programs`, `runs` and `ratios` each have commands; the texts
and programs stand in modules of their own, and `processes` and `builds` measure.
"""
