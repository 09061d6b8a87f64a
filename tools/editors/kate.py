"""The definition of syntax that Kate and all that stands on KSyntaxHighlighting read."""
from xml.sax.saxutils import quoteattr

ABOUT = "tools/write_editors writes this file from editors/words.json."
WORDS = {"modules": "Import", "declarations": "Keyword", "types": "Keyword", "choices": "ControlFlow", "loops": "ControlFlow", "statements": "Keyword", "operators": "Operator Word"}
STANDARD = {"types": "Type", "constants": "Constant", "procedures": "Function", "built_in": "Function"}
NUMBERS = {"hexadecimal": "Number", "character": "Character", "octal": "Number", "decimal": "Number"}
STYLES = {
    "Normal Text": "dsNormal", "Import": "dsImport", "Keyword": "dsKeyword", "ControlFlow": "dsControlFlow", "Operator Word": "dsKeyword", "Type": "dsDataType",
    "Constant": "dsConstant", "Function": "dsBuiltIn", "Number": "dsBaseN", "Character": "dsChar", "String": "dsString", "Operator": "dsOperator",
    "Delimiter": "dsOperator", "Comment": "dsComment", "Wrong": "dsError",
}


def element(tag, **attributes):
    return f"<{tag} {' '.join(f'{key}={quoteattr(value)}' for key, value in attributes.items())}/>"


def rule(attribute, form):
    return element("RegExpr", attribute=attribute, context="#stay", String=form)


def lists(table):
    for front, kinds in (("word", table.reserved), ("standard", table.standard)):
        for kind, words in kinds.items():
            yield f'    <list name="{front} {kind}">'
            yield from (f"      <item>{it}</item>" for it in words)
            yield "    </list>"


def rules(table):
    forms = table.forms
    opened = forms["comment"][0]
    yield "<DetectSpaces/>"
    yield element("Detect2Chars", attribute="Comment", context="Comment", char=opened[0], char1=opened[1], beginRegion="Comment")
    for kind in table.reserved:
        yield element("keyword", attribute=WORDS[kind], context="#stay", String=f"word {kind}")
    for kind in table.standard:
        yield element("keyword", attribute=STANDARD[kind], context="#stay", String=f"standard {kind}")
    for kind, form in table.numbers().items():
        yield rule(NUMBERS[kind], rf"\b(?:{form})\b")
    yield rule("Wrong", rf"\b{forms['run']}\b")
    yield rule("Normal Text", forms["name"])
    for quote in forms["quotes"]:
        yield rule("String", f"{quote}{table.inside(quote)}*{quote}")
        yield rule("Wrong", f"{quote}[^{quote}]*(?:{quote}|$)")
    brackets = [it for pair in table.brackets for it in pair]
    for attribute, signs in (("Operator", table.operators), ("Delimiter", table.delimiters + brackets)):
        for sign in (it for it in signs if len(it) > 1):
            yield element("Detect2Chars", attribute=attribute, context="#stay", char=sign[0], char1=sign[1])
    yield element("AnyChar", attribute="Operator", context="#stay", String="".join(it for it in table.operators if len(it) == 1))
    yield element("AnyChar", attribute="Delimiter", context="#stay", String="".join(it for it in table.delimiters + brackets if len(it) == 1))


def definition(table):
    opened, closed = table.forms["comment"]
    patterns = ";".join(f"*.{it}" for it in table.extensions)
    return "\n".join([
        '<?xml version="1.0" encoding="UTF-8"?>',
        "<!DOCTYPE language>",
        f"<!-- {ABOUT} -->",
        f'<language name="Modula-2 (m2)" section="Sources" version="1" kateversion="5.62" extensions="{patterns}" casesensitive="1" priority="1" license="MIT">',
        "  <highlighting>",
        *lists(table),
        "    <contexts>",
        '      <context name="Normal" attribute="Normal Text" lineEndContext="#stay">',
        *(f"        {it}" for it in rules(table)),
        "      </context>",
        '      <context name="Comment" attribute="Comment" lineEndContext="#stay">',
        f'        {element("Detect2Chars", attribute="Comment", context="Comment", char=opened[0], char1=opened[1], beginRegion="Comment")}',
        f'        {element("Detect2Chars", attribute="Comment", context="#pop", char=closed[0], char1=closed[1], endRegion="Comment")}',
        "      </context>",
        "    </contexts>",
        "    <itemDatas>",
        *(f'      {element("itemData", name=name, defStyleNum=style)}' for name, style in STYLES.items()),
        "    </itemDatas>",
        "  </highlighting>",
        "  <general>",
        f'    <comments><comment name="multiLine" start="{opened}" end="{closed}"/></comments>',
        """    <keywords casesensitive="1" additionalDeliminator="#&quot;'"/>""",
        "  </general>",
        "</language>",
        "",
    ])


def files(table):
    return {"editors/kate/modula-2-m2.xml": definition(table)}


def regions(_table):
    return {}
