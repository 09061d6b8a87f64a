// Modula-2 for CodeMirror: which parts of a line are words, numbers, strings and comments, and how far a line is indented.
(function () {
  const RESERVED = new Set(
    ("AND ARRAY BEGIN BY CASE CONST DEFINITION DIV DO ELSE ELSIF END EXIT EXPORT FOR FROM IF IMPLEMENTATION IMPORT IN LOOP MOD MODULE" +
      " NOT OF OR POINTER PROCEDURE QUALIFIED RECORD REPEAT RETURN SET THEN TO TYPE UNTIL VAR WHILE WITH").split(" "),
  );
  const STANDARD = new Set(
    ("ABS BITSET BOOLEAN CAP CARDINAL CHAR CHR DEC EXCL FALSE HALT HIGH INC INCL INTEGER MAX MIN ODD ORD TRUE VAL Console" +
      " Put").split(" "),
  );
  const OPENS = /^(?:BEGIN|CASE|CONST|DO|ELSE|ELSIF|LOOP|OF|RECORD|REPEAT|THEN|TYPE|VAR)$/;
  const CLOSES = /^\s*(?:END|ELSE|ELSIF|UNTIL|BEGIN|VAR|CONST|TYPE|PROCEDURE)\b/;
  const NUMBER = /^[0-9][0-9A-F]*[HBC]?/;
  const NAME = /^[A-Za-z][A-Za-z0-9]*/;
  const STRING = /^(?:"[^"\n]*"|'[^'\n]*')/;

  /** Passes over a comment, which may have comments within it, up to the end of the line. */
  function comment(stream, state) {
    while (!stream.eol() && state.depth > 0) {
      if (stream.match("(*")) {
        state.depth += 1;
      } else if (stream.match("*)")) {
        state.depth -= 1;
      } else {
        stream.next();
      }
    }
    return "comment";
  }

  function word(name, state) {
    if (RESERVED.has(name)) {
      state.opens = OPENS.test(name);
      return "keyword";
    }
    return STANDARD.has(name) ? "builtin" : "variable";
  }

  function token(stream, state) {
    if (stream.sol()) {
      state.opens = false;
      state.indented = stream.indentation();
    }
    if (state.depth > 0) {
      return comment(stream, state);
    }
    if (stream.eatSpace()) {
      return null;
    }
    if (stream.match("(*")) {
      state.depth = 1;
      return comment(stream, state);
    }
    const name = stream.match(NAME);
    if (name) {
      return word(name[0], state);
    }
    state.opens = false;
    if (stream.match(NUMBER)) {
      return "number";
    }
    if (stream.match(STRING)) {
      return "string";
    }
    return /["']/.test(stream.next()) ? "error" : "operator";
  }

  function indent(state, textAfter, { indentUnit }) {
    const more = state.opens ? indentUnit : 0;
    return Math.max(state.indented + more - (CLOSES.test(textAfter) ? indentUnit : 0), 0);
  }

  CodeMirror.defineMode("modula2", (settings) => ({
    startState: () => ({ depth: 0, opens: false, indented: 0 }),
    token,
    indent: (state, textAfter) => indent(state, textAfter, settings),
    electricInput: /^\s*(?:END|ELSE|ELSIF|UNTIL)$/,
    blockCommentStart: "(*",
    blockCommentEnd: "*)",
  }));
})();
