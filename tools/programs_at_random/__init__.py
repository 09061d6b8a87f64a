"""Random Modula-2 programs of all constructs: tools/random_programs makes them, and compares what they do.

A maker of programs is a chain of classes, each of which stands on the one before: `Scope`, `Designators`, `Calls`,
`Expressions`, `Operations`, `SimpleStatements`, `Statements`, `Procedures` and `Program`. One generator of random
numbers serves all of them. So the order in which they draw from it decides what the program of a seed is.
"""
