// The grammar of Modula-2 for tree-sitter, as docs/LANGUAGE.md has it. Comments nest, so src/scanner.c reads them.

/** Parts with commas between them. */
const list = (part) => seq(part, repeat(seq(",", part)));
/** Parts with semicolons between them, of which each may be left out. */
const series = (part) => choice(seq(part, repeat(seq(";", optional(part)))), repeat1(seq(";", optional(part))));

// tools/write_editors: begin
const IDENTIFIER = /[A-Za-z][A-Za-z0-9]*/;
const NUMBERS = [/[0-9][0-9A-F]*H/, /[0-7]+B/, /[0-9]+/];
const CHARACTER = /[0-7]+C/;
const STRINGS = [/"[ -!#-~]*"/, /'[ -&(-~]*'/];
// tools/write_editors: end

module.exports = grammar({
  name: "modula2",
  externals: ($) => [$.comment],
  extras: ($) => [/\s/, $.comment],
  word: ($) => $.identifier,

  rules: {
    source_file: ($) => choice($.definition_module, $.implementation_module, $.program_module),

    definition_module: ($) =>
      seq("DEFINITION", "MODULE", field("name", $.identifier), ";", repeat($.import), repeat($._definition), "END", $.identifier, "."),
    implementation_module: ($) =>
      seq("IMPLEMENTATION", "MODULE", field("name", $.identifier), ";", repeat($.import), $._block, $.identifier, "."),
    program_module: ($) => seq("MODULE", field("name", $.identifier), ";", repeat($.import), $._block, $.identifier, "."),

    import: ($) => seq(optional(seq("FROM", field("module", $.identifier))), "IMPORT", list($.identifier), ";"),

    _definition: ($) => choice($._section, $.procedure_heading),
    procedure_heading: ($) => seq($._heading, ";"),
    _block: ($) => seq(repeat($._declaration), optional($.body), "END"),
    body: ($) => seq("BEGIN", optional($._statements)),
    _declaration: ($) => choice($._section, $.procedure),
    procedure: ($) => seq($._heading, ";", $._block, $.identifier, ";"),

    _section: ($) => choice($.constants, $.types, $.variables),
    constants: ($) => seq("CONST", repeat($.constant)),
    constant: ($) => seq(field("name", $.identifier), "=", $._expression, ";"),
    types: ($) => seq("TYPE", repeat($.type_declaration)),
    type_declaration: ($) => seq(field("name", $.identifier), "=", $._type, ";"),
    variables: ($) => seq("VAR", repeat($.variable)),
    variable: ($) => seq(list($.identifier), ":", $._type, ";"),

    _heading: ($) => seq("PROCEDURE", field("name", $.identifier), optional($.parameters)),
    parameters: ($) => seq("(", optional(seq($.parameter, repeat(seq(";", $.parameter)))), ")", optional($._result)),
    _result: ($) => seq(":", $.qualified_name),
    parameter: ($) => seq(optional("VAR"), list($.identifier), ":", $.formal_type),
    formal_type: ($) => seq(optional(seq("ARRAY", "OF")), $.qualified_name),
    qualified_name: ($) => seq($.identifier, optional(seq(".", $.identifier))),

    _type: ($) => choice($._simple_type, $.array_type, $.record_type, $.procedure_type),
    _simple_type: ($) => choice($.qualified_name, $.subrange, $.enumeration),
    subrange: ($) => seq(optional($.qualified_name), "[", $._expression, "..", $._expression, "]"),
    enumeration: ($) => seq("(", list($.identifier), ")"),
    array_type: ($) => seq("ARRAY", list($._simple_type), "OF", $._type),
    record_type: ($) => seq("RECORD", optional(series($.field_list)), "END"),
    field_list: ($) => seq(list($.identifier), ":", $._type),
    procedure_type: ($) => seq("PROCEDURE", optional($.formal_types)),
    formal_types: ($) => seq("(", optional(list(seq(optional("VAR"), $.formal_type))), ")", optional($._result)),

    _statements: ($) => series($._statement),
    _statement: ($) =>
      choice($.assignment, $.procedure_call, $.if, $.case, $.while, $.repeat, $.loop, $.exit, $.return, $.for, $.with),
    assignment: ($) => seq($.designator, ":=", $._expression),
    procedure_call: ($) => seq($.designator, optional($.arguments)),
    if: ($) =>
      seq("IF", $._expression, "THEN", optional($._statements), repeat($.elsif), optional($.else), "END"),
    elsif: ($) => seq("ELSIF", $._expression, "THEN", optional($._statements)),
    else: ($) => seq("ELSE", optional($._statements)),
    case: ($) => seq("CASE", $._expression, "OF", optional($.arm), repeat(seq("|", optional($.arm))), optional($.else), "END"),
    arm: ($) => seq(list($.item), ":", optional($._statements)),
    item: ($) => seq($._expression, optional(seq("..", $._expression))),
    while: ($) => seq("WHILE", $._expression, "DO", optional($._statements), "END"),
    repeat: ($) => seq("REPEAT", optional($._statements), "UNTIL", $._expression),
    loop: ($) => seq("LOOP", optional($._statements), "END"),
    exit: () => "EXIT",
    return: ($) => seq("RETURN", optional($._expression)),
    for: ($) =>
      seq("FOR", $.identifier, ":=", $._expression, "TO", $._expression, optional(seq("BY", $._expression)), "DO", optional($._statements), "END"),
    with: ($) => seq("WITH", $.designator, "DO", optional($._statements), "END"),

    designator: ($) => seq($.identifier, repeat(choice($.selector, $.subscripts))),
    selector: ($) => seq(".", $.identifier),
    subscripts: ($) => seq("[", list($._expression), "]"),
    arguments: ($) => seq("(", optional(list($._expression)), ")"),

    _expression: ($) => choice($._sum, $.relation),
    relation: ($) => seq($._sum, choice("=", "#", "<>", "<", "<=", ">", ">=", "IN"), $._sum),
    _sum: ($) => choice($._term, $.signed, $.sum),
    signed: ($) => seq(choice("+", "-"), $._term),
    sum: ($) => seq($._sum, choice("+", "-", "OR"), $._term),
    _term: ($) => choice($._factor, $.term),
    term: ($) => seq($._term, choice("*", "/", "DIV", "MOD", "AND", "&"), $._factor),
    _factor: ($) => choice($.number, $.character, $.string, $.set, $.not, $.brackets, $.designator, $.function_call),
    function_call: ($) => seq($.designator, $.arguments),
    not: ($) => seq(choice("NOT", "~"), $._factor),
    brackets: ($) => seq("(", $._expression, ")"),
    set: ($) => seq(optional($.identifier), "{", optional(list($.item)), "}"),

    identifier: () => IDENTIFIER,
    number: () => token(choice(...NUMBERS)),
    character: () => CHARACTER,
    string: () => token(choice(...STRINGS)),
  },
});
