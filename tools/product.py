"""The C files that tools/cunit writes around what scr emit wrote: a header, the unit, and a driver.

- Product(document, emitted, source, prefix) is what they are made of; source is a Source: the name,
  the sum and the version that are told in them.
- header(product), unit(product), driver(product) are their texts.
- clash(product) says where one name would stand for two things.

Each name of the specification has the prefix and `_` in front. Values are long numbers, as in the C
of scr emit.
"""
from __future__ import annotations

from typing import Dict, Iterable, Iterator, List, NamedTuple, Optional, Tuple

from language import Declaration, Document
from unit import Emitted, branches

BEGIN = "/* ---- What scr emit writes begins here. */\n"
END = "/* ---- What scr emit writes ends here. */\n"
SIGNIFICANT, SIGNIFICANT_INSIDE = 31, 63  # characters of external and of other names (5.2.4.1)


class Source(NamedTuple):
    """Where a product comes from: the name of the file, its SHA-256, and the version of scr."""

    name: str
    sum: str
    version: str


class Product:
    """A specification with its C, under a prefix."""

    def __init__(self, document: Document, emitted: Emitted, source: Source, prefix: str) -> None:
        self.document, self.emitted, self.source, self.prefix = document, emitted, source, prefix
        self.variables = document.variables()

    def name(self, *parts: str) -> str:
        """A name with the prefix in front."""
        return "_".join((self.prefix, *parts))

    def lists(self) -> List[Declaration]:
        """The types of names, and the mode classes."""
        return [it for it in self.document.declarations if it.members]

    def constants(self) -> List[Declaration]:
        return [it for it in self.document.declarations if it.kind == "constant"]

    def list_of(self, variable: str) -> Optional[str]:
        """The type of names or the class whose values a variable has, or None."""
        found = self.document.names[variable]
        owner = found.type_name.text if found.type_name else found.name.text
        declared = self.document.names.get(owner)
        return owner if declared and declared.members else None

    def words_of(self, variable: str) -> Optional[str]:
        """The list of the words for the values of a variable in the driver, or None for numbers."""
        owner = self.list_of(variable)
        if owner:
            return f"shown_{owner}"
        return "shown_BOOLEAN" if self.is_truth(variable) else None

    def is_truth(self, variable: str) -> bool:
        found = self.document.names[variable].type_name
        return found is not None and found.text == "BOOLEAN"

    def bounds(self, variable: str) -> Tuple[int, int]:
        """The least and the greatest number of a variable."""
        return self.document.range_of(variable) or (0, self.document.size_of(variable) - 1)

    def step(self, variable: str) -> Optional[int]:
        """By how much an input may change at a time, where that is bounded."""
        found = self.document.names[variable].step
        return int(found.text) if found else None

    def values(self, variable: str) -> str:
        """What a variable may have, in words."""
        owner = self.list_of(variable)
        low, high = self.bounds(variable)
        step = self.step(variable)
        told = f"enum {self.name(owner)}" if owner else "0 or 1"
        if not owner and not self.is_truth(variable):
            told = f"{low} to {high}"
        return told + (f", by at most {step} at a time" if step is not None else "")


def number(value: int) -> str:
    return f"{value}L" if value >= 0 else f"({value}L)"


# ---- names


def externals(product: Product) -> List[str]:
    """The names that a linker sees."""
    found = [product.name("init")]
    for it in product.variables:
        found += [product.name(moment, it.name.text) for moment in ("get", "v", "o")]
    return found + [product.name("set", it) for it in product.emitted.inputs]


def own_names(product: Product) -> List[Tuple[str, str]]:
    """The names in the bytes of scr emit, each with the one that it gets here."""
    variables = [it.name.text for it in product.variables]
    names = [(f"{moment}_{it}", product.name(moment, it)) for moment in "vo" for it in variables]
    names += [(it, product.name(it)) for it in ("save", "step")]
    return names + [(f"set_{it}", product.name("input", it)) for it in product.emitted.inputs]


def all_names(product: Product) -> Iterator[str]:
    """All names that the texts have at the top, as often as they stand for something."""
    yield product.name("h_included")
    yield from externals(product)
    yield from (one for one, _ in own_names(product))
    yield from (other for _, other in own_names(product) if other not in set(externals(product)))
    yield from (product.name(it.name.text) for it in product.constants())
    for it in product.lists():
        yield product.name(it.name.text)
        yield from (product.name(member.text) for member in it.members)


def alike(names: Iterable[str], length: int) -> Optional[Tuple[str, str]]:
    """The first two names that are the same in so many characters."""
    seen: Dict[str, str] = {}
    for it in names:
        if it[:length] in seen:
            return seen[it[:length]], it
        seen[it[:length]] = it
    return None


def clash(product: Product) -> Optional[str]:
    """What is wrong with the names under this prefix, or None."""
    found = alike(all_names(product), SIGNIFICANT_INSIDE)
    if found:
        return f"the name {found[1]} would stand for two things"
    found = alike(externals(product), SIGNIFICANT)
    if found:
        return "{} and {} would be the same in their first 31 characters".format(*found)
    return None


# ---- texts


def head(product: Product, name: str, lines: Iterable[str]) -> List[str]:
    """The comment in front of a file."""
    source = product.source
    title = product.document.title.text if product.document.title else ""
    return [
        f"/* {name}: made by tools/cunit of scr {source.version}, and not to be changed by hand.",
        " *",
        f" * Specification: {source.name}, SPECIFICATION {title}",
        f" * SHA-256: {source.sum}",
        " *",
        *(f" * {it}".rstrip() for it in lines),
        " */",
    ]


def text_of(lines: Iterable[str]) -> str:
    return "".join(f"{it}\n" for it in lines)


def getter(product: Product, variable: str) -> str:
    """The head of the function that gives the present value of a variable."""
    owner = product.list_of(variable)
    kind = f"enum {product.name(owner)}" if owner else "long"
    kind = "bool" if product.is_truth(variable) else kind
    return f"{kind} {product.name('get', variable)}(void)"


def setter(product: Product, variable: str) -> str:
    return f"bool {product.name('set', variable)}(long value)"


def header(product: Product) -> str:
    """The text of PREFIX.h."""
    guard = product.name("h_included")
    lines = head(
        product,
        f"{product.prefix}.h",
        [
            "For C11 and C++, where a long has 32 bits or more.",
            "The functions share the state of the specification, so they are not reentrant: of all",
            "of them only one may run at a time, also where an interrupt or a thread calls one.",
        ],
    )
    lines += [f"#ifndef {guard}", f"#define {guard}", "", "#include <stdbool.h>", ""]
    if product.constants():
        lines += ["/* The constants. */"]
        for it in product.constants():
            lines.append(f"#define {product.name(it.name.text)} ({it.value}L) /* line {it.line} */")
        lines.append("")
    for it in product.lists():
        members = [product.name(member.text) for member in it.members]
        lines += [f"/* {it.name.text}, line {it.line}. */", f"enum {product.name(it.name.text)} {{"]
        lines += [f"  {name} = {k}," for k, name in enumerate(members[:-1])]
        lines += [f"  {members[-1]} = {len(members) - 1}", "};", ""]
    lines += ["#ifdef __cplusplus", 'extern "C" {', "#endif", ""]
    lines += [
        "/* Goes back to the initial state, which is also that of the start of the program. */",
        f"void {product.name('init')}(void);",
        "",
    ]
    if product.emitted.inputs:
        lines += [
            "/* The inputs. The result says whether the value is taken: it is where it is one that",
            "   the variable may have, and no further from the present one than its bound. Then",
            "   one step of the specification is made, or none where the value is the present one.",
            "   A value that is not taken changes nothing. */",
        ]
        for name in product.emitted.inputs:
            line = product.document.names[name].line
            lines.append(f"{setter(product, name)}; /* line {line}: {product.values(name)} */")
        lines.append("")
    if product.variables:
        lines.append("/* The present values. */")
        for it in product.variables:
            lines.append(f"{getter(product, it.name.text)}; /* line {it.line}: {it.kind} */")
        lines.append("")
    lines += ["#ifdef __cplusplus", "}", "#endif", "", "#endif"]
    return text_of(lines)


def guard_of(product: Product, variable: str) -> str:
    """The condition that a variable may get a value, or has it."""
    low, high = product.bounds(variable)
    parts = [f"(value >= {number(low)}) && (value <= {number(high)})"]
    step, present = product.step(variable), product.name("v", variable)
    if step is not None:
        parts.append(f"((value - {present}) <= {step}L) && (({present} - value) <= {step}L)")
    return "\n      && ".join(parts)


def guarded(product: Product, variable: str) -> List[str]:
    """The function that lets only those inputs through that may come."""
    return [
        "",
        f"{setter(product, variable)} {{",
        "  bool taken = false;",
        f"  if ({guard_of(product, variable)}) {{",
        f"    if (value != {product.name('v', variable)}) {{",
        f"      {product.name('input', variable)}(value);",
        "    }",
        "    taken = true;",
        "  }",
        "  return taken;",
        "}",
    ]


def reading(product: Product, variable: str) -> List[str]:
    """The function that gives a value."""
    owner, present = product.list_of(variable), product.name("v", variable)
    value = f"(enum {product.name(owner)}){present}" if owner else present
    if product.is_truth(variable):
        value = f"{present} != 0L"
    return ["", f"{getter(product, variable)} {{", f"  return {value};", "}"]


def before_bytes(product: Product) -> List[str]:
    """What stands in front of the bytes of scr emit."""
    lines = head(
        product,
        f"{product.prefix}.c",
        [
            "The bytes between the two marks are those that scr emit writes, unchanged. It is",
            "proved of them that they run as the specification does, for every list of inputs that",
            "may come. What stands around them lets no other input through, and is tested, not",
            "proved.",
            "The table at the end leads from each `if` to its cell.",
        ],
    )
    lines += [f'#include "{product.prefix}.h"', "", "/* The names of these bytes, made unique. */"]
    lines += [f"#define {one} {other}" for one, other in own_names(product)]
    lines.append("")
    for moment in "vo":
        lines += [f"extern long {product.name(moment, it.name.text)};" for it in product.variables]
    # without inputs nothing calls these two
    static = "static " if product.emitted.inputs else ""
    lines += [f"{static}void {product.name(it)}(void);" for it in ("save", "step")]
    lines += [f"static void {product.name('input', it)}(long a);" for it in product.emitted.inputs]
    return lines + [
        "",
        "/* AND beside OR has no parentheses there, and a cell that is TRUE is 0L == 0L. */",
        "#if defined(__GNUC__)",
        "#pragma GCC diagnostic push",
        '#pragma GCC diagnostic ignored "-Wparentheses"',
        '#pragma GCC diagnostic ignored "-Wtautological-compare"',
        "#endif",
    ]


def behind_bytes(product: Product) -> List[str]:
    """What stands behind them, but for the table."""
    lines = ["#if defined(__GNUC__)", "#pragma GCC diagnostic pop", "#endif", ""]
    lines.append(f"void {product.name('init')}(void) {{")
    for moment in "vo":
        for it in product.variables:
            first = product.emitted.initial[it.name.text]
            lines.append(f"  {product.name(moment, it.name.text)} = {number(first)};")
    lines.append("}")
    for name in product.emitted.inputs:
        lines += guarded(product, name)
    for it in product.variables:
        lines += reading(product, it.name.text)
    return lines + [""]


def table(product: Product, text: str) -> List[str]:
    """The comment that leads from each `if` to its cell."""
    found = branches(product.document, text)
    if not found:
        return ["/* No cell, and so no `if`. */"]
    places = [f"{it.table.name.text} row {it.row} column {it.column}" for it in found]
    wide = max(map(len, places))
    lines = [
        "/* Each `if` of these bytes: its line, its cell as scr check counts them, and the lines",
        f" * of {product.source.name} that have it.",
        " *",
    ]
    for it, place in zip(found, places):
        lines.append(f" * {it.line:5}  {place:{wide}}  {', '.join(map(str, it.lines))}")
    return [*lines, " */"]


def unit(product: Product) -> str:
    """The text of PREFIX.c."""
    text = text_of(before_bytes(product)) + BEGIN + product.emitted.text + END
    text += text_of(behind_bytes(product))
    return text + text_of(table(product, text))


# ---- the driver


def named(product: Product) -> List[str]:
    """The types of names and classes that some variable has."""
    owners = [product.list_of(it.name.text) for it in product.variables]
    return [it for it in dict.fromkeys(owners) if it]


def shown(product: Product, variable: str) -> str:
    """The argument of printf for a value."""
    words, value = product.words_of(variable), f"{product.name('get', variable)}()"
    return f"{words}[(int){value}]" if words else value


def state_function(product: Product) -> List[str]:
    """The function that prints a state as scr simulate does."""
    names = [it.name.text for it in product.variables]
    forms = [f" {it}=%{'s' if product.words_of(it) else 'ld'}" for it in names]
    lines = ["", "/* A state, as scr simulate prints it. */", "static void show(long inputs) {"]
    lines.append('  printf("%ld", inputs);')
    lines += [f'  printf("{form}", {shown(product, it)});' for form, it in zip(forms, names)]
    return [*lines, '  printf("\\n");', "}"]


PARSED = """
/* The place of a name in a list, or else the word as a number, or LONG_MIN where it is none. */
static long number_of(const char *word, const char *const *names, int count) {
  char *end = NULL;
  long number = 0;
  int k;
  for (k = 0; k < count; k++) {
    if (strcmp(word, names[k]) == 0) {
      return k;
    }
  }
  number = strtol(word, &end, 10);
  return (end == word || *end != '\\0') ? LONG_MIN : number;
}

/* Gives an input and prints what comes of it; the result is how many inputs there were. */
static long give(long inputs, const char *name, const char *word) {
  long old = 0;
  long now = 0;
  bool taken = false;
"""
UNKNOWN = """ else {
    printf("no input %s\\n", name);
    return inputs;
  }
  if (!taken) {
    printf("not taken: %s %s\\n", name, word);
    return inputs;
  }
  inputs += (old != now) ? 1 : 0;
  show(inputs);
  return inputs;
}
"""
MAIN = """
/* Each line is SET, a variable, and a value by its name or number, or INIT; # begins a comment. */
int main(void) {
  char line[4200], word[64], name[64], value[64];
  long inputs = 0;
  show(inputs);
  while (fgets(line, (int)sizeof line, stdin) != NULL) {
    int words = 0;
    line[strcspn(line, "#")] = '\\0';
    words = sscanf(line, "%63s %63s %63s", word, name, value);
    if (words == 3 && strcmp(word, "SET") == 0) {
      inputs = give(inputs, name, value);
    } else if (words == 1 && strcmp(word, "INIT") == 0) {
      inputs = 0;
      INITIAL();
      show(inputs);
    } else if (words > 0) {
      printf("no line of a script: %s\\n", word);
    }
  }
  return 0;
}
"""


def giving(product: Product) -> str:
    """The functions by which an input is given."""
    cases = []
    for name in product.emitted.inputs:
        words = product.words_of(name)
        names = f"{words}, {product.document.size_of(name)}" if words else "NULL, 0"
        cases.append(
            f'if (strcmp(name, "{name}") == 0) {{\n'
            f"    old = (long){product.name('get', name)}();\n"
            f"    taken = {product.name('set', name)}(number_of(word, {names}));\n"
            f"    now = (long){product.name('get', name)}();\n"
            "  }"
        )
    main = MAIN.replace("INITIAL", product.name("init"))
    return PARSED + "  " + " else ".join(cases) + UNKNOWN + main


def driver(product: Product) -> str:
    """The text of PREFIX_driver.c."""
    says = "by a script on standard input, and prints states as simulate does."
    lines = head(product, f"{product.prefix}_driver.c", [f"Runs {product.prefix}.c {says}"])
    own = [f'#include "{product.prefix}.h"']
    others = ["limits", "stdio", "stdlib", "string"] if product.emitted.inputs else ["stdio"]
    lines += own + [f"#include <{it}.h>" for it in others]
    lines.append("")
    for owner in named(product):
        members = ", ".join(f'"{it}"' for it in product.document.members_of(owner))
        lines.append(f"static const char *const shown_{owner}[] = {{{members}}};")
    if any(product.is_truth(it.name.text) for it in product.variables):
        lines.append('static const char *const shown_BOOLEAN[] = {"FALSE", "TRUE"};')
    lines += state_function(product)
    if product.emitted.inputs:
        return text_of(lines) + giving(product)
    return text_of([*lines, "", "int main(void) {", "  show(0);", "  return 0;", "}"])
