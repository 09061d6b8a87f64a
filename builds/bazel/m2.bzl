"""Rules that build Modula-2 programs with m2, one module at a time.

The program m2 stands in the folder of this file, which is below the top of the workspace, or the attribute m2 of a rule names another.
write_build writes the rules of a whole program.
"""

M2DefinitionInfo = provider(
    doc = "The text of a definition, and those that it needs.",
    fields = {"files": "depset of the texts: its own, and those of all that it imports, directly and through others"},
)

M2ModuleInfo = provider(
    doc = "A module that is compiled.",
    fields = {
        "code": "the file M.wasm",
        "link": "the file M.link, which says what m2 link has to know",
    },
)

_TOOL = {
    "m2": attr.label(
        default = ":m2",
        allow_single_file = True,
        executable = True,
        cfg = "exec",
        doc = "The program m2.",
    ),
}

# m2 looks in no folder but those that the actions name.
_NO_LIBRARY = {"M2_LIB": ""}

def _folder(file):
    return file.dirname or "."

def _texts(targets):
    return [target[M2DefinitionInfo].files for target in targets]

def _definition(ctx):
    files = depset([ctx.file.src], transitive = _texts(ctx.attr.imports))
    checked = ctx.actions.declare_file(ctx.label.name + ".checked")
    words = ctx.actions.args()
    words.add_all([checked, ctx.executable.m2, "compile"])
    words.add_all(files, map_each = _folder, before_each = "--lib", uniquify = True)
    words.add(ctx.file.src)
    ctx.actions.run_shell(
        # m2 writes nothing for a definition, and Bazel wants a file
        command = 'checked=$1; shift; "$@" && : > "$checked"',
        arguments = [words],
        tools = [ctx.executable.m2],
        inputs = files,
        outputs = [checked],
        env = _NO_LIBRARY,
        mnemonic = "M2Check",
        progress_message = "Checking " + ctx.file.src.short_path,
    )
    return [DefaultInfo(files = depset([checked])), M2DefinitionInfo(files = files)]

m2_definition = rule(
    doc = "A definition. It is checked alone if it is built by its own name.",
    implementation = _definition,
    attrs = dict(
        _TOOL,
        src = attr.label(mandatory = True, allow_single_file = [".def"], doc = "Its text."),
        imports = attr.label_list(providers = [M2DefinitionInfo], doc = "The definitions that it imports."),
    ),
)

def _module(ctx):
    code = ctx.actions.declare_file(ctx.label.name + ".wasm")
    link = ctx.actions.declare_file(ctx.label.name + ".link")
    own = [ctx.attr.definition] if ctx.attr.definition else []
    definitions = depset(transitive = _texts(own + ctx.attr.imports))
    words = ctx.actions.args()
    words.add_all(["compile", "--out", code.dirname, "--workers", "1"])
    words.add_all(definitions, map_each = _folder, before_each = "--lib", uniquify = True)
    words.add(ctx.file.src)
    ctx.actions.run(
        executable = ctx.executable.m2,
        arguments = [words],
        inputs = depset([ctx.file.src], transitive = [definitions]),
        outputs = [code, link],
        env = _NO_LIBRARY,
        mnemonic = "M2Compile",
        progress_message = "Compiling " + ctx.file.src.short_path,
    )
    return [DefaultInfo(files = depset([code, link])), M2ModuleInfo(code = code, link = link)]

m2_module = rule(
    doc = "A body, which is compiled with the definitions that it needs and no other body. The rule has the name of the module.",
    implementation = _module,
    attrs = dict(
        _TOOL,
        src = attr.label(mandatory = True, allow_single_file = [".mod"], doc = "The text of the body."),
        definition = attr.label(providers = [M2DefinitionInfo], doc = "Its own definition; a program module has none."),
        imports = attr.label_list(providers = [M2DefinitionInfo], doc = "The definitions that the body imports."),
    ),
)

def _program(ctx):
    program = ctx.actions.declare_file(ctx.label.name + "/link.wasm")
    files = []
    for module in [ctx.attr.main] + ctx.attr.modules:
        for file in [module[M2ModuleInfo].code, module[M2ModuleInfo].link]:
            placed = ctx.actions.declare_file(ctx.label.name + "/" + file.basename)
            ctx.actions.symlink(output = placed, target_file = file)
            files.append(placed)
    words = ctx.actions.args()
    words.add_all(["link", "--out", program.dirname, "--memory", str(ctx.attr.memory), ctx.attr.main.label.name])
    ctx.actions.run(
        executable = ctx.executable.m2,
        arguments = [words],
        inputs = files,
        outputs = [program],
        env = _NO_LIBRARY,
        mnemonic = "M2Link",
        progress_message = "Linking " + ctx.label.name,
    )
    return [DefaultInfo(files = depset([program] + files))]

m2_program = rule(
    # bodies may use each other's definitions in a circle, and rules may not: so this one names all modules
    doc = "A program: a folder with link.wasm and all modules, as m2run reads it.",
    implementation = _program,
    attrs = dict(
        _TOOL,
        main = attr.label(mandatory = True, providers = [M2ModuleInfo], doc = "The program module."),
        modules = attr.label_list(providers = [M2ModuleInfo], doc = "All other modules of the program."),
        memory = attr.int(default = 16, doc = "How many pages of 65536 bytes the memory has."),
    ),
)
