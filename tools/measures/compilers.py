"""The command `compilers`: lines a second of m2c, beside those of the Tiny C Compiler on the same program in C."""
import os
import shutil

from .builds import build_words, make_corpus, outcome, size_of, write_files
from .processes import FAILED, middle

HEAD = """typedef unsigned int cardinal;
typedef struct { cardinal letters, digits, others; } summary;
static cardinal total;
"""

# the procedures of tools/make_corpus, line by line
PAIR = """void sort{k}(cardinal *items, cardinal count)
{{ cardinal outer, inner, least, kept;

  /* the least of what is left comes next */
  outer = 0;
  while (outer < count) {{
    least = outer;
    inner = outer + 1;
    while (inner < count) {{
      if (items[inner] < items[least]) least = inner;
      inner++;
    }}
    kept = items[outer]; items[outer] = items[least]; items[least] = kept;
    outer++;
  }}
}}

cardinal words{k}(char *text, cardinal high, summary *sum)
{{ cardinal at, words; int inside;

  words = 0; inside = 0;

    sum->letters = 0; sum->digits = 0; sum->others = 0;
    for (at = 0; at <= high; at++) {{
      switch (text[at]) {{
        case 'a' ... 'z': case 'A' ... 'Z': sum->letters++; if (!inside) words++; inside = 1; break;
        case '0' ... '9': sum->digits++; inside = 1; break;
        case ' ': case ',': case '.': sum->others++; inside = 0; break;
        default: inside = 0;
      }}
    }}
    if (((sum->letters > {k}) && (sum->digits * 3 + sum->others / 2 <= {more})) || (words == 0)) words = words % {most};

  return words;
}}

"""


def c_texts(modules, pairs):
    """The modules in C, by their files."""
    text = HEAD + "".join(PAIR.format(k=k, more=k + 7, most=k + 3) for k in range(pairs))
    return {f"lib{number}.c": text for number in range(modules)}


def lines_of(files):
    """The lines of all these files."""
    count = 0
    for path in files:
        with open(path, "rb") as file:
            count += file.read().count(b"\n")
    return count


def report(name, ran, files):
    """Reports how many lines and bytes a second a compiler takes of these files, and answers the lines a second."""
    lines, size = lines_of(files), size_of(files)
    print(f"{name}: {lines} lines, {size} bytes, {ran.seconds:.2f} s: {lines / ran.seconds / 1e6:.2f} million lines and {size / ran.seconds / 1e6:.1f} MB a second")
    return lines / ran.seconds


def compilers(room, modules, pairs):
    """Builds a program by m2c with one worker, and the same program in C by tcc, if it is there."""
    files = make_corpus(f"{room}/corpus", modules, pairs)
    ran = middle(build_words(files, f"{room}/out"))
    if ran.status:
        print(f"m2c: {outcome(ran)}")
        FAILED.append("m2c")
        return
    ours = report("m2c", ran, files)
    if not shutil.which("tcc"):
        print("tcc is not there (Debian: apt-get install tcc)")
        return
    texts = write_files(f"{room}/c", c_texts(modules, pairs))
    here = os.getcwd()
    os.chdir(f"{room}/c")
    ran = middle(["tcc", "-c", *texts])
    os.chdir(here)
    if ran.status:
        print(f"tcc: {ran.said.splitlines()[:1]}")
        FAILED.append("tcc")
        return
    theirs = report("tcc", ran, texts)
    print(f"m2c by tcc, in lines a second: {ours / theirs:.2f}")
