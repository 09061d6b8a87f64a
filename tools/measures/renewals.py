"""The command `builds`: builds of a large program by m2, anew and after small changes, beside m2c, gm2 with make, and fpc."""
import os
import shutil

from .builds import build_words, make_corpus, size_of, write_files
from .processes import FAILED, M2, measure, middle

# the procedures of tools/make_corpus in Pascal, line by line
HEADS = """procedure Sort{k}(var items: array of longword; count: longword);
function Words{k}(var text: array of char; var sum: Summary): longword;
"""
PAIR = """procedure Sort{k}(var items: array of longword; count: longword);
var outer, inner, least, kept: longword;
begin
  (* the least of what is left comes next *)
  outer := 0;
  while outer < count do begin
    least := outer;
    inner := outer + 1;
    while inner < count do begin
      if items[inner] < items[least] then least := inner;
      inc(inner)
    end;
    kept := items[outer]; items[outer] := items[least]; items[least] := kept;
    inc(outer)
  end
end;

function Words{k}(var text: array of char; var sum: Summary): longword;
var at, words: longword; inside: boolean;
begin
  words := 0; inside := false;
  with sum do begin
    letters := 0; digits := 0; others := 0;
    for at := 0 to high(text) do
      case text[at] of
        'a'..'z', 'A'..'Z': begin inc(letters); if not inside then inc(words); inside := true end;
        '0'..'9': begin inc(digits); inside := true end;
        ' ', ',', '.': begin inc(others); inside := false end;
        else inside := false
      end;
    if (letters > {k}) and (digits * 3 + others div 2 <= {more}) or (words = 0) then words := words mod {most}
  end;
  Words{k} := words
end;

"""


def pascal_texts(modules, pairs):
    """The program in Pascal, by the names of its files."""
    heads = "".join(HEADS.format(k=k) for k in range(min(pairs, 3)))
    bodies = "".join(PAIR.format(k=k, more=k + 7, most=k + 3) for k in range(pairs))
    texts = {}
    for number in range(modules):
        interface = f"interface\ntype Summary = record letters, digits, others: longword end;\n{heads}"
        texts[f"lib{number}.pas"] = f"unit lib{number};\n{interface}implementation\nvar total: longword;\n{bodies}begin\n  total := {number}\nend.\n"
    used = ", ".join(f"lib{number}" for number in range(modules))
    texts["main.pas"] = f"program main;\nuses {used};\nbegin\nend.\n"
    return texts


def makefile(modules):
    """The steps by which gm2 compiles each module from its text and the definitions that it needs."""
    names = [f"Lib{number}" for number in range(modules)]
    objects = " ".join(f"{name}.o" for name in [*names, "Main"])
    definitions = " ".join(f"{name}.def" for name in names)
    rules = "".join(f"{name}.o: {name}.mod {name}.def\n" for name in names)
    return f"all: {objects}\n{rules}Main.o: Main.mod {definitions}\n%.o: %.mod\n\tgm2 -fpim4 -O0 -c -o $@ $<\n"


def rewrite(path, old, new):
    """Replaces a part of a file."""
    with open(path, encoding="latin-1", newline="") as file:
        text = file.read()
    with open(path, "w", encoding="latin-1", newline="") as file:
        file.write(text.replace(old, new, 1))


def report(name, ran, first=None):
    """Reports the processor time of a build, and how many times as long another one took."""
    if ran.status:
        print(f"  {name}: failed with status {ran.status} {ran.said.partition(chr(10))[0]}")
        FAILED.append(name)
        return
    ratio = f", {ran.seconds / first.seconds:.2f} times the first" if first else ""
    print(f"  {name}: {ran.seconds:.2f} s{ratio}", flush=True)


def changed(path, old, news, build):
    """The middle build of those behind each of these changes. Behind each the file is as it was, and is built so."""
    runs = []
    for new in news:
        rewrite(path, old, new)
        runs.append(measure(build))
        rewrite(path, new, old)
        measure(build)
    return sorted(runs, key=lambda ran: ran.seconds)[len(runs) // 2]


def ours(room, files):
    """What `m2 build` takes beside `m2c`."""
    folder = os.path.dirname(files[0])
    build = [M2, "build", "--out", f"{room}/out", f"{folder}/Main.mod"]
    os.makedirs(f"{room}/out", exist_ok=True)
    first = middle(build_words(files, f"{room}/m2c"))
    report("m2c", first)
    report("m2 build --fresh", middle([*build, "--fresh"]), first)
    report("m2 build, nothing changed", middle(build), first)
    body = [f"total := {1000 + n}" for n in range(3)]
    report("m2 build, a body changed", changed(f"{folder}/Lib7.mod", "total := 7", body, build), first)
    comments = [f"(* {n} *) TYPE Summary" for n in range(3)]
    report("m2 build, a comment in a definition", changed(f"{folder}/Lib7.def", "TYPE Summary", comments, build), first)


def beside(name, package, folder, words, body):
    """What another compiler takes for all of a program, for nothing, and for one body that changed."""
    if not shutil.which(name):
        print(f"  {name} is not there (Debian: apt-get install {package})")
        return
    here = os.getcwd()
    os.chdir(folder)
    first = measure(words)
    report(f"{name}, all", first)
    report(f"{name}, nothing changed", measure(words), first)
    rewrite(body, "total := 7", "total := 77")
    report(f"{name}, a body changed", measure(words), first)
    os.chdir(here)


def builds(room, modules, pairs):
    """Builds one program by several compilers, anew and after small changes."""
    files = make_corpus(f"{room}/corpus", modules, pairs)
    print(f"{len(files)} files, {size_of(files)} bytes, seconds of processor time:")
    ours(room, files)
    write_files(f"{room}/corpus", {"Makefile": makefile(modules)})
    beside("gm2", "gm2", f"{room}/corpus", ["make", "-s"], "Lib7.mod")
    write_files(f"{room}/pascal", pascal_texts(modules, pairs))
    beside("fpc", "fp-compiler", f"{room}/pascal", ["fpc", "-O-", "-v0", "main.pas"], "lib7.pas")
