#!/usr/bin/env python3
"""Compares what the library's source exports with what C and Rust are told of it.

    declarations.py          in the repository, from any folder

The source is crates/drintelbok_c/src/lib.rt, its functions marked `pub extern "C"`, and crates/drintelbok/src/lib.rt, its `#[repr(C)]`
structs. They are declared in include/pipnn.h and in bindings/rust/src/sys.rs. Every function must be in all three, with the same parameters in the same order, of
the same names and types, and the same result; every struct with the same fields. A slice x of the source is a pointer x and a length
x_length. Names of structs are snake case in C; a struct has at most seven fields, of 32 bits each (docs/DECISIONS.md, 51). Refusals have their names and numbers in crates/error, for code and for definitions:
header and Rust must have the same, and every check of a definition one of these names. Limits are compared with the library's constants.
The header's formulas for sizes, in its macros and in its text, must have the values of the definitions in crates/store.

Then it tries edits of these files, one at a time and in memory, and fails if one goes unnoticed; so too with small texts of its
own, which have every type that may cross C, whether the library uses it or not.
"""
import itertools
import pathlib
import re
import sys

HOME = pathlib.Path(__file__).resolve().parent.parent
SOURCE = "crates/drintelbok_c/src/lib.rt"
STRUCTS = "crates/drintelbok/src/lib.rt"
HEADER = "include/pipnn.h"
RUST = "bindings/rust/src/sys.rs"
REFUSALS = "crates/error/src/lib.rt"
DEFINED_REFUSALS = "crates/error/specs/Numbers.antt"
ERRORS = "bindings/rust/src/error.rs"
LIMITS = "bindings/rust/src/params.rs"
LAYOUT = "crates/store/specs/Layout.antt"
LIMIT_SOURCES = ["crates/params/src/lib.rt", "crates/search/src/lib.rt", "crates/household/src/lib.rt"]

C_NUMBERS = {
    "uint8_t": "u8",
    "uint32_t": "u32",
    "uint64_t": "u64",
    "int64_t": "i64",
    "size_t": "usize",
    "float": "f32",
    "double": "f64",
}
NUMBERS = set(C_NUMBERS.values())
FIELDS = {"u32", "f32"}
MOST_FIELDS = 7


class Unreadable(Exception):
    """A declaration that the comparison does not know how to read: it is not passed over."""


def camel(snake):
    return "".join(word.capitalize() for word in snake.lower().split("_"))


def parts(text):
    return [part.strip() for part in text.split(",") if part.strip()]


def field(text, where):
    found = re.fullmatch(r"pub (\w+): (\w+)", text)
    if not found:
        raise Unreadable(f"{where}: field '{text}'")
    return found.groups()


def struct_of(name, fields, where):
    if not 1 <= len(fields) <= MOST_FIELDS or any(kind not in FIELDS for _, kind in fields):
        raise Unreadable(f"{where}: struct {name} has other than 1 to {MOST_FIELDS} fields of 32 bits")
    return name, fields


def once(pairs, where):
    names = [name for name, _ in pairs]
    twice = {name for name in names if names.count(name) > 1}
    if twice:
        raise Unreadable(f"{where}: declared twice: {sorted(twice)}")
    return dict(pairs)


# ---- the source


def source_parameter(text):
    name, kind = re.fullmatch(r"(\w+): (.+)", text).groups()
    slice_of = re.fullmatch(r"&(mut )?\[(\w+)\]", kind)
    if slice_of and slice_of[2] in NUMBERS:
        return [(name, f"*{'mut' if slice_of[1] else 'const'} {slice_of[2]}"), (f"{name}_length", "usize")]
    if kind in NUMBERS:
        return [(name, kind)]
    raise Unreadable(f"{SOURCE}: parameter '{text}'")


def of_source(files):
    text, declared = (re.sub(r"//.*", "", files[name]) for name in (SOURCE, STRUCTS))
    structs = [
        struct_of(name, [field(f, STRUCTS) for f in parts(body)], STRUCTS)
        for name, body in re.findall(r"#\[repr\(C\)\]\s*(?:#\[derive\([\w, ]*\)\]\s*)?pub struct (\w+) \{(.*?)\}", declared, re.S)
    ]
    functions = [
        (name, ([p for q in parts(arguments) for p in source_parameter(q)], result))
        for name, arguments, result in re.findall(
            r'#\[unsafe\(no_mangle\)\]\s*pub extern "C" fn (\w+)\((.*?)\)\s*->\s*(\w+)', text, re.S
        )
    ]
    if len(functions) != text.count('extern "C"') or len(structs) != declared.count("struct ") + text.count("struct "):
        raise Unreadable(f"{SOURCE}, {STRUCTS}: a function or a struct that is not read")
    return once(structs, STRUCTS), once(functions, SOURCE)


# ---- the header


def c_parameter(text):
    found = re.fullmatch(r"(const )?(\w+) (\*?)(\w+)", text)
    if not found or found[2] not in C_NUMBERS or (found[1] and not found[3]):
        raise Unreadable(f"{HEADER}: parameter '{text}'")
    kind = C_NUMBERS[found[2]]
    if found[3]:
        kind = f"*{'const' if found[1] else 'mut'} {kind}"
    return found[4], kind


def c_result(text):
    if text in C_NUMBERS:
        return C_NUMBERS[text]
    if text.startswith("struct "):
        return camel(text[len("struct ") :])
    raise Unreadable(f"{HEADER}: result '{text}'")


def of_header(text):
    text = re.sub(r"/\*.*?\*/", " ", text, flags=re.S)
    text = re.sub(r"^\s*#.*$|^\s*extern \"C\" \{$|^\}$", "", text, flags=re.M)
    structs, functions = [], []
    for declaration in re.split(r";(?![^{]*\})", text):
        declaration = " ".join(declaration.split())
        if not declaration or declaration.startswith("enum "):
            continue
        struct = re.fullmatch(r"struct (\w+) \{(.*)\}", declaration)
        if struct:
            fields = [c_parameter(" ".join(f.split())) for f in struct[2].split(";") if f.strip()]
            structs.append(struct_of(camel(struct[1]), fields, HEADER))
            continue
        function = re.fullmatch(r"((?:struct )?\w+) (\w+)\((.*)\)", declaration)
        if not function:
            raise Unreadable(f"{HEADER}: '{declaration}'")
        functions.append((function[2], ([c_parameter(p) for p in parts(function[3])], c_result(function[1]))))
    return once(structs, HEADER), once(functions, HEADER)


# ---- the Rust declarations


def rust_parameter(text):
    name, kind = re.fullmatch(r"(\w+): (.+)", text).groups()
    pointer = re.fullmatch(r"\*(mut|const) (\w+)", kind)
    if (pointer[2] if pointer else kind) not in NUMBERS:
        raise Unreadable(f"{RUST}: parameter '{text}'")
    return name, kind


def of_rust(text):
    text = re.sub(r"//.*", "", text)
    structs = [
        struct_of(name, [field(f, RUST) for f in parts(body)], RUST)
        for name, body in re.findall(r"#\[repr\(C\)\]\s*(?:#\[.*?\]\s*)*pub struct (\w+) \{(.*?)\}", text, re.S)
    ]
    block = re.findall(r'extern "C" \{(.*?)\}', text, re.S)
    if len(block) != 1:
        raise Unreadable(f"{RUST}: not one extern block")
    functions = [
        (name, ([rust_parameter(p) for p in parts(arguments)], result))
        for name, arguments, result in re.findall(r"pub fn (\w+)\((.*?)\)\s*->\s*(\w+);", block[0], re.S)
    ]
    if len(functions) != block[0].count("fn ") or len(structs) != text.count("pub struct "):
        raise Unreadable(f"{RUST}: a function or a struct that is not read")
    return once(structs, RUST), once(functions, RUST)


# ---- refusals and limits


def closing(text, at):
    """Past the bracket that closes one opened just before `at`."""
    depth = 1
    while depth:
        depth += {"(": 1, ")": -1}.get(text[at], 0)
        at += 1
    return at


def defined_checks(files, known):
    """Of the definitions: the name in each `check (..) NAME` and in each refusal with no values, `(NAME, [])`."""
    names = set()
    for file, text in files.items():
        if file.startswith("crates/") and "/specs/" in file:
            for test in re.finditer(r"\bcheck \(", text):
                name = re.match(r" ([a-z]\w*)\b", text[closing(text, test.end()) :])
                if not name:
                    raise Unreadable(f"{file}: a check without a refusal's name: '{text[test.start():test.end() + 40]}'")
                names.add(camel(name[1]))
            bare = re.search(r"\([1-9]\d*, \[\]\)", text)
            if bare:
                raise Unreadable(f"{file}: a refusal without a name: '{bare[0]}'")
            names |= {camel(name) for name in re.findall(r"\((\w+), \[\]\)", text)} & known
    return names


def named_refusals(files):
    """Name and number of each refusal, and of success: in the code, the definitions, the header and the Rust crate."""
    found = {
        REFUSALS: re.findall(r"^    (\w+) = (\d+),$", files[REFUSALS], re.M),
        DEFINED_REFUSALS: [(camel(name), number) for name, number in re.findall(r"^(\w+) = (\d+)$", files[DEFINED_REFUSALS], re.M)],
        HEADER: [(camel(name), number) for name, number in re.findall(r"^    PIPNN_(\w+) = (\d+)", files[HEADER], re.M)],
        ERRORS: re.findall(r"^    (\w+) = (\d+), \"", files[ERRORS], re.M),
    }
    for where in (REFUSALS, DEFINED_REFUSALS, ERRORS):
        found[where].append(("Ok", "0"))
    named = {where: once(pairs, where) for where, pairs in found.items()}
    if len(set(named[REFUSALS].values())) != len(named[REFUSALS]):
        raise Unreadable(f"{REFUSALS}: two names for one number")
    return named


def limits(files):
    pattern = r"^pub const (MOST_\w+): (?:u32|usize) = (\d+);"
    source = [pair for name in LIMIT_SOURCES for pair in re.findall(pattern, files[name], re.M)]
    return (
        once(source, "limits"),
        once(re.findall(r"^#define PIPNN_(MOST_\w+) (\d+)\b", files[HEADER], re.M), HEADER),
        once(re.findall(pattern, files[LIMITS], re.M), LIMITS),
    )


# ---- sizes

# Of each size: its definition, its macro, and the buffer and the letters of its line under BUFFERS in the header.
SIZES = [
    ("words_size", "WORDS_SIZE", "words", "C D"),
    ("floats_size", "FLOATS_SIZE", "floats", "C dimension"),
    ("scratch_words", "SCRATCH_WORDS", "scratch_words", "C"),
    ("scratch_floats", "SCRATCH_FLOATS", "scratch_floats", "C"),
]
# Enough to tell any two formulas apart that have no power above the third of either number.
TRIED = list(itertools.product((0, 1, 7, 1024), (0, 1, 5, 32)))


def match_once(pattern, text, where):
    found = list(re.finditer(pattern, text, re.M))
    if len(found) != 1:
        raise Unreadable(f"{where}: {len(found)} lines like '{pattern}'")
    return found[0].groups()


def values(formula, names, where):
    """Of a formula over some of the names, at the numbers tried."""
    if not re.fullmatch(r"[\w +*()]+", formula) or not set(re.findall(r"[A-Za-z_]\w*", formula)) <= set(names):
        raise Unreadable(f"{where}: size '{formula}'")
    try:
        return [eval(formula, {"__builtins__": {}}, dict(zip(names, numbers))) for numbers in TRIED]
    except (SyntaxError, TypeError, NameError):
        raise Unreadable(f"{where}: size '{formula}'") from None


def size_differences(files):
    constants = dict(re.findall(r"^(\w+) = (\d+)$", files[LAYOUT], re.M))
    header = files[HEADER]
    for name, macro, buffer, letters in SIZES:
        names, formula = match_once(rf"^{name} ((?:\w+ )+)= (.+)$", files[LAYOUT], LAYOUT)
        whole = re.sub(r"[A-Za-z]\w*", lambda word: constants.get(word[0], word[0]), formula)
        defined = values(whole, names.split(), LAYOUT)
        arguments, body = match_once(rf"^#define PIPNN_{macro}\((.*?)\) (.+)$", header, HEADER)
        (line,) = match_once(rf"^ \*   {buffer} +(\S.*?)  ", header, HEADER)
        if values(body.replace("(size_t)", ""), parts(arguments), HEADER) != defined:
            yield f"{HEADER}: PIPNN_{macro} is '{body}' where {LAYOUT} has '{formula}'"
        if values(line, letters.split(), HEADER) != defined:
            yield f"{HEADER}: {buffer} under BUFFERS has '{line}' where {LAYOUT} has '{formula}'"


# ---- comparing


def flat(declaration):
    """A declaration as the list of its parts: fields or parameters, and a result."""
    if isinstance(declaration, tuple):
        return flat(declaration[0]) + [f"-> {declaration[1]}"]
    if isinstance(declaration, list):
        return [f"{name}: {kind}" for name, kind in declaration]
    return [str(declaration)]


def differences(what, there, here, where, source="the source"):
    for name in sorted(there.keys() | here.keys()):
        if name not in here or name not in there:
            yield f"{where}: {what} {name} is {'missing' if name in there else f'not in {source}'}"
            continue
        for other, this in itertools.zip_longest(flat(there[name]), flat(here[name]), fillvalue="nothing"):
            if other != this:
                yield f"{where}: {what} {name} has '{this}' where {source} has '{other}'"
                break


def compare_declared(files):
    structs, functions = of_source(files)
    odd = sorted(name for name, (_, result) in functions.items() if result not in NUMBERS | structs.keys())
    if odd:
        raise Unreadable(f"{SOURCE}: results of {odd}")
    found = []
    for where, (other_structs, other_functions) in (
        (HEADER, of_header(files[HEADER])),
        (RUST, of_rust(files[RUST])),
    ):
        found += differences("struct", structs, other_structs, where)
        found += differences("function", functions, other_functions, where)
    return found, (len(functions), len(structs))


def compare(files):
    found, declared = compare_declared(files)
    named = named_refusals(files)
    refusals = named[REFUSALS]
    for where in (DEFINED_REFUSALS, HEADER, ERRORS):
        found += differences("refusal", refusals, named[where], where, REFUSALS)
    checked = defined_checks(files, refusals.keys()) | {"Ok"}
    if checked != refusals.keys():
        found.append(f"{REFUSALS}: not in both it and the definitions' checks: {sorted(checked ^ refusals.keys())}")
    there, in_header, in_rust = limits(files)
    found += differences("limit", there, in_header, HEADER)
    found += differences("limit", there, in_rust, LIMITS)
    found += size_differences(files)
    return found, (*declared, len(refusals), len(there), len(SIZES))


# Edits that the comparison must notice: the file, the old text, and the new text for its first occurrence.
EDITS = [
    (HEADER, "uint32_t k,\n", "uint32_t ef,\n"),
    (HEADER, "uint32_t max_leaf_size,\n                   uint32_t min_leaf_size", "uint32_t min_leaf_size,\n                   uint32_t max_leaf_size"),
    (HEADER, "double leader_fraction", "float leader_fraction"),
    (HEADER, "const float *vector", "float *vector"),
    (HEADER, "size_t vector_length", "uint32_t vector_length"),
    (HEADER, "uint64_t day", "uint32_t day"),
    (HEADER, "size_t pipnn_scratch_floats(uint32_t capacity);\n", ""),
    (HEADER, "size_t pipnn_words_size", "uint32_t pipnn_words_size"),
    (HEADER, "struct pipnn_found pipnn_search(", "struct pipnn_household pipnn_search("),
    (HEADER, "    uint32_t count;", "    uint64_t count;"),
    (HEADER, "    uint32_t phones;", "    uint32_t people;"),
    (HEADER, "    uint32_t known;", "    float known;"),
    (HEADER, "float limit", "double limit"),
    (HEADER, "PIPNN_FULL = 8", "PIPNN_FULL = 9"),
    (HEADER, "PIPNN_MOST_DEGREE 32", "PIPNN_MOST_DEGREE 64"),
    (RUST, "capacity: u32,\n        ) -> u32;", "capacity: usize,\n        ) -> u32;"),
    (RUST, "k: u32,\n            ef: u32,\n            docs: *mut", "ef: u32,\n            k: u32,\n            docs: *mut"),
    (RUST, "floats: *const f32", "floats: *mut f32"),
    (RUST, "pub number: u32,\n    pub count: u32", "pub count: u32,\n    pub number: u32"),
    (RUST, "day: u64,\n", "day: i64,\n"),
    (ERRORS, "NotBuilt = 10", "NotBuilt = 9"),
    (LIMITS, "MOST_CAPACITY: usize = 1024", "MOST_CAPACITY: usize = 2048"),
    (SOURCE, "min_leaf_size: u32,\n", "min_leaf_size: u64,\n"),
    (STRUCTS, "    pub scored: u32,\n", "    pub scored: u32,\n    pub bridges: u32,\n"),
    (SOURCE, "query: &[f32]", "query: &mut [f32]"),
    (ERRORS, 'BadSightings = 14, "', 'Sightings = 14, "'),
    (REFUSALS, "Full = 8", "Full = 15"),
    (REFUSALS, "Full = 8", "Full = 9"),
    (DEFINED_REFUSALS, "empty_index = 9", "empty_index = 10"),
    (DEFINED_REFUSALS, "abbrev pub full : ℕ\nfull = 8\n", ""),
    ("crates/def_calls/specs/Search.antt", "built_state)) not_built", "built_state)) already_built"),
    ("crates/def_calls/specs/Search.antt", "built_state)) not_built", "built_state)) 10"),
    ("crates/household/specs/Household.antt", "(bad_sightings, [])", "(14, [])"),
    ("crates/params/src/lib.rt", "MOST_DIMENSION: u32 = 64", "MOST_DIMENSION: u32 = 96"),
    (LAYOUT, "header_size + C * (4 + D)", "header_size + C * (5 + D)"),
    (LAYOUT, "header_size = 16", "header_size = 20"),
    (HEADER, "(4 + (size_t)(max_degree))", "(5 + (size_t)(max_degree))"),
    (HEADER, "(4 + (size_t)(max_degree))", "4 + (size_t)(max_degree)"),
    (HEADER, "((size_t)(capacity) * (size_t)(dimension))", "((size_t)(capacity) * (size_t)(capacity))"),
    (HEADER, "(64 * (size_t)(capacity))", "(32 * (size_t)(capacity))"),
    (HEADER, "#define PIPNN_SCRATCH_FLOATS(capacity) (16 * (size_t)(capacity) + 256)\n", ""),
    (HEADER, "16 + C * (4 + D)", "16 + C * (3 + D)"),
    (HEADER, "16 * C + 256 ", "16 * C + 128 "),
]


# Texts with every type that may cross C.
EVERY_TYPE = {
    STRUCTS: """
#[repr(C)]
pub struct PipnnSeven {
    pub number: u32,
    pub first: u32,
    pub second: u32,
    pub third: u32,
    pub fourth: u32,
    pub fifth: f32,
    pub sixth: u32,
}
""",
    SOURCE: """
#[unsafe(no_mangle)]
pub extern "C" fn pipnn_seven(offset: i64, seconds: &[i64], moved: &mut [i64], mark: u8, text: &[u8], page: &mut [u8]) -> PipnnSeven
{
}

#[unsafe(no_mangle)]
pub extern "C" fn pipnn_day(second: i64, share: f64, from: u64) -> i64
{
}

#[unsafe(no_mangle)]
pub extern "C" fn pipnn_byte(text: &[u8], at: usize) -> u8
{
}
""",
    HEADER: """
struct pipnn_seven {
    uint32_t number;
    uint32_t first;
    uint32_t second;
    uint32_t third;
    uint32_t fourth;
    float fifth;
    uint32_t sixth;
};
struct pipnn_seven pipnn_seven(int64_t offset, const int64_t *seconds, size_t seconds_length,
                               int64_t *moved, size_t moved_length, uint8_t mark,
                               const uint8_t *text, size_t text_length, uint8_t *page, size_t page_length);
int64_t pipnn_day(int64_t second, double share, uint64_t from);
uint8_t pipnn_byte(const uint8_t *text, size_t text_length, size_t at);
""",
    RUST: """
#[repr(C)]
pub struct PipnnSeven {
    pub number: u32,
    pub first: u32,
    pub second: u32,
    pub third: u32,
    pub fourth: u32,
    pub fifth: f32,
    pub sixth: u32,
}
extern "C" {
    pub fn pipnn_seven(
        offset: i64,
        seconds: *const i64,
        seconds_length: usize,
        moved: *mut i64,
        moved_length: usize,
        mark: u8,
        text: *const u8,
        text_length: usize,
        page: *mut u8,
        page_length: usize,
    ) -> PipnnSeven;
    pub fn pipnn_day(second: i64, share: f64, from: u64) -> i64;
    pub fn pipnn_byte(text: *const u8, text_length: usize, at: usize) -> u8;
}
""",
}
RUST_FIELD, C_FIELD = "    pub sixth: u32,\n", "    uint32_t sixth;\n"


def in_all(rust_field, c_field):
    """The last field as another one, in the three texts at once."""
    return [(STRUCTS, RUST_FIELD, rust_field), (HEADER, C_FIELD, c_field), (RUST, RUST_FIELD, rust_field)]


EDITS_OF_EVERY_TYPE = [
    (SOURCE, "offset: i64", "offset: u64"),
    (SOURCE, "offset: i64", "offset: i32"),
    (SOURCE, "seconds: &[i64]", "seconds: &[u64]"),
    (SOURCE, "seconds: &[i64]", "seconds: &[i64; 4]"),
    (SOURCE, "moved: &mut [i64]", "moved: &[i64]"),
    (SOURCE, "mark: u8", "mark: u32"),
    (SOURCE, "page: &mut [u8]", "page: &[u8]"),
    (SOURCE, "-> i64", "-> u64"),
    (SOURCE, "-> u8", "-> i8"),
    (SOURCE, "-> PipnnSeven", "-> PipnnEight"),
    (STRUCTS, RUST_FIELD, ""),
    (STRUCTS, "pub fifth: f32", "pub fifth: u32"),
    (HEADER, "int64_t offset", "uint64_t offset"),
    (HEADER, "int64_t offset", "long offset"),
    (HEADER, "const int64_t *seconds", "const uint64_t *seconds"),
    (HEADER, "const int64_t *seconds", "int64_t *seconds"),
    (HEADER, "uint8_t mark", "uint32_t mark"),
    (HEADER, "const uint8_t *text", "const char *text"),
    (HEADER, "uint8_t *page", "uint32_t *page"),
    (HEADER, ", size_t page_length", ""),
    (HEADER, "\nint64_t pipnn_day", "\nuint64_t pipnn_day"),
    (HEADER, "\nuint8_t pipnn_byte", "\nuint32_t pipnn_byte"),
    (HEADER, "    float fifth;\n" + C_FIELD, C_FIELD + "    float fifth;\n"),
    (HEADER, C_FIELD, "    uint8_t sixth;\n"),
    (RUST, "offset: i64", "offset: u64"),
    (RUST, "seconds: *const i64", "seconds: *const u64"),
    (RUST, "moved: *mut i64", "moved: *const i64"),
    (RUST, "mark: u8", "mark: i8"),
    (RUST, "page: *mut u8", "page: *mut u32"),
    (RUST, "-> u8", "-> u32"),
    (RUST, RUST_FIELD, RUST_FIELD + "    pub seventh: u32,\n"),
    in_all(RUST_FIELD + "    pub seventh: u32,\n", C_FIELD + "    uint32_t seventh;\n"),
    in_all("    pub sixth: i64,\n", "    int64_t sixth;\n"),
    in_all("    pub sixth: u8,\n", "    uint8_t sixth;\n"),
    in_all("    pub sixth: [u32; 2],\n", "    uint32_t sixth[2];\n"),
]


def unnoticed(files, edits, comparing):
    """Edits, each of one file or of several at once, that a comparison of files that agree does not notice."""
    for edit in edits:
        together = edit if isinstance(edit, list) else [edit]
        edited = dict(files)
        for name, old, new in together:
            if old not in edited[name]:
                yield f"{name}: the edit's text is not there: {old!r}"
            edited[name] = edited[name].replace(old, new, 1)
        try:
            found, _ = comparing(edited)
        except Unreadable as unread:
            found = [str(unread)]
        if not found:
            yield f"edit goes unnoticed: {together!r}"


def main():
    names = [SOURCE, STRUCTS, HEADER, RUST, REFUSALS, ERRORS, LIMITS, *LIMIT_SOURCES]
    names += [str(path.relative_to(HOME)) for path in sorted(HOME.glob("crates/*/specs/**/*.antt"))]
    files = {name: (HOME / name).read_text(encoding="utf-8") for name in names}
    try:
        found, (functions, structs, numbers, bounds, sizes) = compare(files)
        of_every_type, _ = compare_declared(EVERY_TYPE)
    except Unreadable as unread:
        sys.exit(f"cannot be read: {unread}")
    found += of_every_type
    found = found or list(unnoticed(files, EDITS, compare)) + list(unnoticed(EVERY_TYPE, EDITS_OF_EVERY_TYPE, compare_declared))
    if found:
        sys.exit("\n".join(found))
    print(
        f"declarations: {functions} functions, {structs} structs, {numbers} return numbers, {bounds} limits and {sizes} sizes agree; "
        f"{len(EDITS)} edits of them were noticed, "
        f"and {len(EDITS_OF_EVERY_TYPE)} of texts with every type that may cross C"
    )


if __name__ == "__main__":
    main()
