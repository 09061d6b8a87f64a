"""The types of the programs that are made: how they are declared, their bases and their components."""
import collections

Variable = collections.namedtuple("Variable", "name type assignable", defaults=(True,))
Procedure = collections.namedtuple("Procedure", "name formals result level", defaults=(0,))

SCALARS = ("INTEGER", "CARDINAL", "BOOLEAN", "CHAR", "BITSET", "Colour", "Small", "Wide", "Letter", "Warm")
BASE = {"Small": "INTEGER", "Wide": "CARDINAL", "Letter": "CHAR", "Warm": "Colour"}
COLOURS = ("red", "orange", "yellow", "green", "blue")
TYPES = """TYPE
  Colour = (red, orange, yellow, green, blue);
  Small = [-9..20];
  Wide = CARDINAL [3..400];
  Letter = ["a".."z"];
  Warm = [red..yellow];
  Row = ARRAY [-2..4] OF INTEGER;
  Table = ARRAY [0..2] OF ARRAY Colour OF Small;
  Text = ARRAY [0..7] OF CHAR;
  Item = RECORD key: Wide; name: Text; mark: BITSET; inner: RECORD hue: Warm; row: Row END END;
  Items = ARRAY [0..3] OF Item;
  Binary = PROCEDURE (INTEGER, CARDINAL): INTEGER;
  Action = PROCEDURE (VAR INTEGER, Small);
"""
# the names of these types
TYPE_NAMES = "Colour, Small, Wide, Letter, Warm, Row, Table, Text, Item, Items, Binary, Action"
# a component of a structured type: how it is written, and its type
PARTS = {
    "Row": [("[{Small:-2:4}]", "INTEGER")],
    "Table": [("[{Wide:0:2}, {Colour}]", "Small"), ("[{Wide:0:2}][{Colour}]", "Small")],
    "Text": [("[{Wide:0:7}]", "CHAR")],
    "Item": [
        (".key", "Wide"),
        (".mark", "BITSET"),
        (".inner.hue", "Warm"),
        (".inner.row[{Small:-2:4}]", "INTEGER"),
        (".name[{Wide:0:7}]", "CHAR"),
    ],
    "Items": [
        ("[{Wide:0:3}].key", "Wide"),
        ("[{Wide:0:3}].mark", "BITSET"),
        ("[{Wide:0:3}].inner.hue", "Warm"),
        ("[{Wide:0:3}].name[{Wide:0:7}]", "CHAR"),
    ],
    "Open INTEGER": [("[{Wide:0:3}]", "INTEGER")],
    "Open CHAR": [("[{Wide:0:3}]", "CHAR")],
}
# the structured types, and where one is a component of another: how it is written, and of which
WHOLE = {"Row": [], "Table": [], "Text": [(".name", "Item")], "Item": [("[{Wide:0:3}]", "Items")], "Items": []}
# the fields of an Item that WITH makes visible
FIELDS = {"key": "Wide", "mark": "BITSET", "name": "Text"}
