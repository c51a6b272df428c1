"""Lists each expression of the sources that makes a want of memory and is no conversion of one that came from below.

No contract can force an allocation to succeed, so a body that answers want of memory in place of another answer would be
proved. That none does is read here, off the sources of all crates but those of tests. A want is made by
- an `AllocError`, an `AllocFailed` with its value, an `OutOfMemory` of std, a fault's `WantOfMemory`, the `Unloaded` of a
  refusal, the `Short` of a run of events or of a remark,
- a call of `want`, which writes the line of one, or of `out_of_memory`, which makes the refusal of one, and a field `wants` that is set, which has one written later,
- a text with the words of one,
- a request for memory that none can meet, as `Vec::with_capacity(alloc, usize::MAX)`,
- a `None` of `Outcome::refused`, for which the line of one is written,
- another name for one of these, by `use .. as ..`.

It may be made
- in `fn from` of an `impl From<AllocError>` or `From<AllocFailed<..>>`,
- on the right of a match arm, or in the block of an `if let`, each of whose patterns names a want or whose guard tests for one,
- in a closure or a block behind a condition that takes or tests for one, as `|AllocError| ..`,
- where a line below says why, and as often as it says.
All else is printed with its line, and the status is 1. With the word `self-test` the check is tried on planted sources.
"""
import glob
import os
import re
import sys

# The file and the line of each expression that is taken although none of the forms above fits; how often it stands there, and
# the reason. A line may move within its file; one that is added or taken away changes the number.
TAKEN = {
    ("crates/book_lock/src/blanks.rt", "Err(Refused { slots: _ }) => Err(SeatsFault::WantOfMemory),"): (1, "a table is refused only where there is no memory for its words or its slots"),
    ("crates/snap_share/src/publisher.rt", "Err(_operation) => Err(ShareFault::WantOfMemory),"): (1, "`append` hands an operation back only where there is no memory"),
    ("crates/snap_share/src/cell.rt", "Err(AllocError)"): (1, "so `left_right` is told that an operation has no stamp; `show` answers Closed then"),
    ("crates/sync_server/src/follow.rt", "return Some(ReadEnd::WantOfMemory);"): (1, "`vec!` answers no vector only where memory ran out"),
    ("crates/sync_server/src/read.rt", "None => (collected.snapshots, ReadEnd::WantOfMemory),"): (1, "the sink there is a list, which takes a snapshot unless memory ran out"),
    ("crates/flagops_streams/src/following.rt", "None if wants => finish(out, ReadEnd::WantOfMemory),"): (1, "the printer sets `wants` only where there was no memory for a line"),
    ("crates/flagops_streams/src/report.rt", 'write_three(out, b"refused ", call.as_bytes(), b" 0 WantOfMemory\\n");'): (1, "`want` writes the line; its calls are looked for"),
    ("crates/flagops_shell/src/reports.rt", 'write_three(out, b"refused ", call.as_bytes(), b" 0 WantOfMemory\\n");'): (1, "`want` writes the line; its calls are looked for"),
    ("crates/flagops_shell/src/reports.rt", "tell(&mut console.err, Remark::Short.text());"): (1, "`want` tells it; its calls are looked for"),
    ("crates/flagops_shell/src/running.rt", "None => want(console, call),"): (1, "`Outcome::refused` gives none only where memory ran out"),
    ("crates/flagops_files/src/refusal.rt", "refusal: Refusal::WantOfMemory(call),"): (1, "`out_of_memory` makes it; its calls are looked for"),
    ("crates/flagops_files/src/refusal.rt", "remark: Remark::Short,"): (1, "the same"),
    ("crates/flagops_rollouts/src/refusal.rt", "refusal: RolloutRefusal::WantOfMemory(call),"): (1, "`out_of_memory` makes it; its calls are looked for"),
    ("crates/flagops_rollouts/src/refusal.rt", "remark: Remark::Short,"): (1, "the same"),
    ("crates/flagops_commands/src/refusal.rt", "refusal: ListedRefusal::WantOfMemory(call),"): (1, "`out_of_memory` makes it; its calls are looked for"),
    ("crates/flagops_commands/src/refusal.rt", "remark: Remark::Short,"): (1, "the same"),
    ("crates/flagops_books/src/refusal.rt", "refusal: BookRefusal::WantOfMemory,"): (1, "`out_of_memory` makes it; its calls are looked for"),
    ("crates/flagops_books/src/refusal.rt", "remark: Remark::Short,"): (1, "the same"),
    ("crates/flagops_checks/src/refusal.rt", "refusal: CheckRefusal::WantOfMemory,"): (1, "`out_of_memory` makes it; its calls are looked for"),
    ("crates/flagops_checks/src/refusal.rt", "remark: Remark::Short,"): (1, "the same"),
    ("crates/flagops_files/src/loading.rt", "Err(_) => Remark::Short,"): (1, "the rule was refused, so its text is a tree, and is read again"),
    ("crates/file_diagnostics/src/definition_errors.rt", 'return Err(AllocError);'): (1, "the document was read as flags, so it is a tree, and is read again"),
    ("crates/flagops_checks/src/command.rt", "Some(Remark::Short)"): (1, "`is_short` is set only where there was no memory for lines"),
    ("crates/flagops_compare/src/command.rt", "refusal: CompareRefusal::WantOfMemory,"): (1, "`out_of_memory` makes it; its calls are looked for"),
    ("crates/flagops_compare/src/command.rt", "remark: Remark::Short,"): (1, "the same"),
    ("crates/flagops/src/main.rt", 'ExitCode::from(want(&mut Console::new(out, err), "flagops"))'): (1, "there is no memory for the stack that the commands run on"),
    ("crates/flagops_ramps/src/judging.rt", "return Err(out_of_memory());"): (1, "the book was read before, so `count` fails only where memory ran out, as its clause says"),
    ("crates/flagops_ramps/src/ramping.rt", "return Err(out_of_memory());"): (1, "the same"),
    ("crates/flagops_ramps/src/keeping.rt", "return Err(out_of_memory());"): (1, "the same"),
    ("crates/flagops_ramps/src/judging.rt", "refusal: RampRefusal::Verify(VerifyFault::Request(RolloutFault::WantOfMemory)),"): (1, "`out_of_memory` tells of an `AllocError`; its calls are looked for"),
    ("crates/flagops_ramps/src/judging.rt", "remark: Remark::Short,"): (1, "the same"),
    ("crates/flagops_filters/src/joining.rt", "refusal: FilterRefusal::Load(Refusal::ReadTally(TallyFileFault::WantOfMemory)),"): (1, "`out_of_memory` tells of an `AllocError`; its calls are looked for"),
    ("crates/flagops_filters/src/joining.rt", "remark: Remark::Short,"): (1, "the same"),
    ("crates/library_seat/src/held.rt", "Err(AllocFailed { value }) => {"): (1, "a pattern: it takes the flags back that the refused request gives back"),
    ("crates/snap_core/src/names.rt", "Err(_) => return Err(WorldFault::WantOfMemory),"): (1, "of the faults of `add`, whose clause `exact` has Known and TooMany alone, only want of memory is left there"),
}

# The name of a text that has the words of a want, in place of it.
WORDS = "WordsOfWant"
NAMES = r"AllocError|AllocFailed|WantOfMemory|OutOfMemory|Unloaded|Short"
MADE = re.compile(
    r"\b(?:AllocError|WantOfMemory|OutOfMemory|" + WORDS + r")\b|\bAllocFailed(?=\s*\{)"
    r"|(?<!struct )\bShort(?=\s*\{)|\bRemark::Short\b|(?<!struct )(?<!&)\bUnloaded\b(?!\s*[<{])"
    r"|(?<![\w.])(?<!fn )(?:want|want_of|out_of_memory)(?=\s*\()|\bwants\b(?=\s*(?:\|?=(?!=)|:)(?!\s*(?:false|bool)\b))"
)
NAMED = re.compile(r"\b(?:AllocError|AllocFailed|WantOfMemory|OutOfMemory)\b|\b(?:Refusal::Unloaded|Remark::Short)\b|\.is_memory\(\)|\.is_want\(\)")
# The function of which `None` is a want, by its head.
NONE_IS_WANT = re.compile(r"\bfn refused\b[^{};]*\bOption<Outcome>[^{};]*\{")
RENAMED = re.compile(r"\b(?:" + NAMES + r"|want)\s+as\s+\w")
ASKS = re.compile(r"\b(?:with_capacity|\w*reserve\w*|repeat)\s*\(|\bvec!\s*\[")
TOO_MUCH = re.compile(r"\bMAX\b|<<|\d(?:_?\d){9}")
OPEN, CLOSE = "([{", ")]}"


def blank(text, pattern, flags=0):
    """The text with all that matches made blank, so that each place and line stays."""
    return re.sub(pattern, lambda found: re.sub(r"[^\n]", " ", found.group()), text, flags=flags)


def closing(text, at):
    """The place of the bracket that closes the one at a place."""
    depth = 0
    for place in range(at, len(text)):
        depth += (text[place] in OPEN) - (text[place] in CLOSE)
        if depth == 0:
            return place
    return len(text)


def without_texts(source):
    """The source without comments and texts, but for a name in the place of each text that has the words of a want."""

    def blanked(found):
        space = re.sub(r"[^\n]", " ", found.group())
        is_want = found.group()[0] != "/" and re.search(r"out of memory|WantOfMemory", found.group())
        return WORDS + space[len(WORDS) :] if is_want else space

    text = blank(source, r'#\[error\("[^\n]*"\)\]')
    return re.sub(r'//[^\n]*|b?"(?:[^"\\]|\\.)*"|b?\'(?:[^\'\\\n]|\\.)\'', blanked, text, flags=re.S)


def code_of(source):
    """The source without comments, texts, contracts, imports, generic arguments and declared variants."""
    text = without_texts(source)
    for head in list(re.finditer(r"\b(?:requires|ensures)\b[^{\n]*\{", text)) + list(re.finditer(r"\bghost \w+[ =:]*\{", text)):
        end = closing(text, head.end() - 1)
        text = text[: head.start()] + re.sub(r"[^\n]", " ", text[head.start() : end + 1]) + text[end + 1 :]
    text = blank(text, r"^\s*(?:pub )?(?:ghost )?use [^;]*;", re.M | re.S)
    text = blank(text, r"\{ \.\. \}")
    for head in list(re.finditer(r"\benum \w+[^{;]*\{", text)):
        end = closing(text, head.end() - 1)
        text = text[: head.end()] + re.sub(r"[^\n]", " ", text[head.end() : end]) + text[end:]
    return text.replace("->", "  ").replace("=>", "\x01 ").replace("<=", "  ").replace(">=", "  ")


def without_types(text):
    """The code without generic arguments and the types of parameters and bindings."""
    before = None
    while before != text:
        before, text = text, blank(text, r"(?<=[\w:])<[^<>;{}\x01]*>")
    return blank(text, r"(?<!:):\s*(?:&\s*)?(?:\w+::)*(?:AllocError|AllocFailed)\b")


def is_each(pattern):
    """Whether each alternative of a pattern, or its guard, names a want."""
    head, _, guard = pattern.partition(" if ")
    if guard:
        return bool(NAMED.search(guard)) and not re.search(r"!=|!\s*\w|\|\|", guard) or is_each(head)
    parts, depth, start = [], 0, 0
    for place, char in enumerate(head):
        depth += (char in OPEN) - (char in CLOSE)
        if char == "|" and depth == 0:
            parts.append(head[start:place])
            start = place + 1
    return all(NAMED.search(part) for part in parts + [head[start:]])


def statement(text, block, at):
    """Where the statement or arm of a block begins that a place stands in."""
    depth, start, place = 0, block + 1, block + 1
    while place < at:
        char = text[place]
        if char in OPEN:
            end = closing(text, place)
            if end >= at:
                break
            # a block in braces ends its statement, unless it is a part of one
            if char == "{" and not re.match(r"\s*(?:else\b|[.?\x01)=&|])", text[end + 1 :]) and "\x01" not in text[start:place]:
                start = end + 1
            elif char == "{" and "\x01" in text[start:place] and not re.match(r"\s*(?:else\b|[.?])", text[end + 1 :]):
                start = end + 1
            place = end + 1
            continue
        if char in ";," and depth == 0:
            start = place + 1
        place += 1
    return start


def around(text, at):
    """The brackets that a place stands in, the innermost first."""
    found, depth = [], 0
    for place in range(at - 1, -1, -1):
        if text[place] in CLOSE:
            depth += 1
        elif text[place] in OPEN:
            if depth == 0:
                found.append(place)
            else:
                depth -= 1
    return found


def is_pattern(text, at, levels):
    """Whether a place stands in a pattern, a condition, or a comparison, which make nothing."""
    for level in levels:
        if text[level] == "(" and re.search(r"matches!\s*$", text[:level]):
            return "," in text[level:at]
    block = next((level for level in levels if text[level] == "{"), -1)
    start = statement(text, block, at)
    depth = 0
    for place in range(at, len(text)):
        char = text[place]
        if char in OPEN:
            depth += 1
            if char == "{" and depth <= 1 and re.match(r"\s*(?:\}?\s*else\s+)?(?:if|while)\b", text[start:at]):
                return True
        if char in CLOSE:
            depth -= 1
            if char == "}":
                break
        if char == "\x01" and block == next((it for it in around(text, place) if text[it] == "{"), -1) and start == statement(text, block, place):
            return "\x01" not in text[start:at]
        if char == ";":
            break
    head = text[start:at]
    is_bound = re.search(r"\blet\b[^=]*$", head) or re.search(r"(?:[(,=]|\bmove)\s*\|[^|]*$", head)
    return bool(is_bound or re.search(r"[=!]=\s*[\w:(]*$", head))


def is_passed_on(text, types, at, levels):
    """Whether what is made at a place comes of a want from below."""
    for index, level in enumerate([*levels, None]):
        inner = levels[index - 1] if index else at
        if level is not None and text[level] != "{":
            head = text[level + 1 : inner]
            closure = re.search(r"\|([^|]*)\|[^|]*$", types[level + 1 : inner])
            if closure and is_each(closure.group(1)):
                return True
            continue
        if level is None:
            return False
        start = statement(text, level, inner)
        head = text[start:inner]
        if "\x01" in head and is_each(head.split("\x01")[0]):
            return True
        opened = re.search(r"(?:\bif\b|\bwhile\b)((?:(?!\belse\b)[^{}])*)$", head)
        if index and text[inner] == "{" and opened:
            condition = opened.group(1)
            found = re.match(r"\s*let\b([^=]*)=", condition)
            if is_each(found.group(1)) if found else NAMED.search(condition) and not re.search(r"!=|!\s*\w|\|\|", condition):
                return True
        if index and re.search(r"\bfn from\s*\(\s*\w+:\s*(?:AllocError|AllocFailed<\w+>)\s*\)[^{}]*$", types[start:inner]):
            return True
    return False


def asked_too_much(text):
    """The places of the requests for memory that none can meet."""
    return [asks.start() for asks in ASKS.finditer(text) if TOO_MUCH.search(text[asks.end() : closing(text, asks.end() - 1)])]


def wants_made(source):
    """The lines on which a want of memory is made that did not come from below, in their order."""
    plain = without_texts(source)
    types = code_of(source)
    text = without_types(types)
    imports = blank(plain, r"\bghost use [^;]*;", re.S)
    found = [renamed.start() for renamed in RENAMED.finditer(imports)] + asked_too_much(plain)
    nones = [none for head in NONE_IS_WANT.finditer(types) for none in re.compile(r"\bNone\b").finditer(text, head.end(), closing(text, head.end() - 1))]
    for made in [*MADE.finditer(text), *nones]:
        levels = around(text, made.start())
        is_made = made.group() == WORDS or not is_pattern(text, made.start(), levels)
        if is_made and not is_passed_on(text, types, made.start(), levels):
            found.append(made.start())
    return sorted(source.count("\n", 0, place) + 1 for place in found)


def is_of_tests(name):
    return name.split("/")[1].endswith("_tests") or "/tests/" in name or name.endswith("/tests.rt")


def faults(sources, taken):
    """What is wrong with these sources, of which these lines are taken, each so often."""
    lines = {}
    for name, source in sources:
        for number in wants_made(source):
            line = source.split("\n")[number - 1].strip()
            lines.setdefault((name, line), []).append(number)
    found = []
    for name, line in sorted(set(lines) | set(taken)):
        numbers = lines.get((name, line), [])
        times = taken.get((name, line), (0, ""))[0]
        if times and len(numbers) != times:
            found.append(f"{name}: stands there {len(numbers)} times {numbers}, and is taken {times} times by the list: {line}")
        elif not times:
            found += [f"{name}:{number}: makes a want of memory: {line}" for number in numbers]
    return found


def check(top):
    sources = []
    for path in sorted(glob.glob(os.path.join(top, "crates", "*", "src", "**", "*.rt"), recursive=True)):
        name = os.path.relpath(path, top)
        if not is_of_tests(name):
            with open(path, encoding="utf-8") as file:
                sources.append((name, file.read()))
    found = faults(sources, TAKEN)
    print("\n".join(found), end="\n" if found else "")
    return len(found)


PLANTED = [
    ("a fault for any other", "fn f() -> Result<u8, AllocError> {\n    match g() {\n        Ok(n) => Ok(n),\n        Err(_) => Err(AllocError),\n    }\n}\n", [4]),
    ("a refusal at once", "fn f() -> Result<u8, Fault> {\n    if is_late() {\n        return Err(Fault::WantOfMemory);\n    }\n    Ok(1)\n}\n", [3]),
    ("a closure that takes anything", "fn f() -> Result<u8, Fault> {\n    g().map_err(|_e| Fault::WantOfMemory)\n}\n", [2]),
    ("an alternative that is none", "fn f(e: Fault) -> Other {\n    match e {\n        Fault::WantOfMemory | Fault::NotJson => Other::WantOfMemory,\n        _ => Other::Bad,\n    }\n}\n", [3]),
    ("a guard that says the opposite", "fn f() -> R {\n    match g() {\n        Err(e) if e.kind() != ErrorKind::OutOfMemory => Err(Fault::WantOfMemory),\n        _ => Ok(1),\n    }\n}\n", [3]),
    ("none where there is nothing", "fn f() -> R {\n    let n = g().ok_or(AllocError)?;\n    Ok(n)\n}\n", [2]),
    ("the line of a want", "fn f(out: &mut O) -> u8 {\n    want(out, Call::Plan)\n}\n", [2]),
    ("the refusal of a want", "fn f() -> R {\n    Err(Refused::out_of_memory(Call::Plan))\n}\n", [2]),
    ("a run cut short", "pub struct Short {\n    pub done: usize,\n}\nfn f() -> Result<u8, Short> {\n    match g() {\n        Ok(n) => Ok(n),\n        Err(_) => Err(Short { done: 0 }),\n    }\n}\n", [7]),
    ("a block behind an arm", "fn f() -> R {\n    match g() {\n        Ok(n) => {\n            Err(Fault::WantOfMemory)\n        }\n        Err(AllocError) => Err(Fault::WantOfMemory),\n    }\n}\n", [4]),
    ("the variant of a refusal", "fn f() -> Result<u8, Refusal> {\n    if g() {\n        return Err(Refusal::Unloaded);\n    }\n    match h() {\n        Ok(n) => Ok(n),\n        Err(_) => Err(Refusal::Unloaded),\n    }\n}\n", [3, 7]),
    ("a mark that has one written later", "fn take(&mut self, n: u64) -> bool {\n    if n > 5 {\n        self.wants = true;\n        return false;\n    }\n    self.wants |= n == 4;\n    true\n}\n", [3, 6]),
    ("a mark from the beginning", "fn f() -> Printer {\n    Printer { line: 0, wants: is_late() }\n}\n", [2]),
    ("a request that none can meet", "fn f(alloc: Global) -> Result<u8, AllocError> {\n    let _ = Vec::<u8>::with_capacity(alloc, usize::MAX)?;\n    let _ = vec![in alloc; 0u8; 1 << 60]?;\n    text.try_reserve(9_000_000_000_000_000_000)?;\n    Ok(1)\n}\n", [2, 3, 4]),
    ("nothing where there is a line", "pub fn refused<R: CommandRefusal>(alloc: Global, it: Refused<R>) -> Option<Outcome>\n    ensures { IfSome result (\u03bb o. o) }\n{\n    if it.is_want() {\n        return None;\n    }\n    if it.is_late() {\n        return None;\n    }\n    match it.line(alloc) {\n        Ok(text) => Some(Outcome::of(text)),\n        Err(AllocError) => None,\n    }\n}\n", [8]),
    ("another name", "use std::alloc::AllocError as Full;\nfn f() -> Result<u8, Full> {\n    Err(Full)\n}\n", [1]),
    ("the value of a failed request", "fn f(n: u8) -> Result<u8, AllocFailed<u8>> {\n    Err(AllocFailed { value: n })\n}\n", [2]),
    ("its words", "fn f(out: &mut O) -> u8 {\n    if write_three(out, b\"refused \", b\"publish\", b\" 0 WantOfMemory\\n\") {\n        tell(out, \"error: out of memory\\n\");\n    }\n    1\n}\n", [2, 3]),
    ("its words, as a remark", "fn f() -> Remark {\n    match g() {\n        Ok(n) => Remark::of(n),\n        Err(_) => Remark::Short,\n    }\n}\n", [4]),
    ("after an arm that passes one on", "fn f() -> R {\n    match g() {\n        Err(AllocError) => return Err(Fault::WantOfMemory),\n        Ok(n) => h(n),\n    }\n    Err(Fault::WantOfMemory)\n}\n", [6]),
]

KEPT = [
    ("a conversion", "impl From<AllocError> for Fault {\n    fn from(_e: AllocError) -> Fault {\n        Fault::WantOfMemory\n    }\n}\nimpl<T: Drop> From<AllocFailed<T>> for Fault {\n    fn from(_e: AllocFailed<T>) -> Fault {\n        Fault::WantOfMemory\n    }\n}\n"),
    ("an arm", "fn f() -> Result<Vec<(u8, u8)>, AllocError> {\n    match g(Some(1)) {\n        Ok(n) => Ok(n),\n        Err(EvalFault::WantOfMemory) => Err(AllocError),\n    }\n}\n"),
    ("a block of an arm", "fn f() -> R {\n    match g() {\n        Err(AllocError) => {\n            let call = h();\n            Err(Refusal::WantOfMemory(call))\n        }\n        Ok(n) => Ok(n),\n    }\n}\n"),
    ("a guard", "fn f() -> R {\n    match g() {\n        Err(e) if e.kind() == ErrorKind::OutOfMemory => Err(Fault::WantOfMemory),\n        Err(e) if e.is_memory() => want(out, Call::Flagops),\n        _ => Ok(1),\n    }\n}\n"),
    ("a closure", "fn f() -> R {\n    g().map_err(|AllocError| Refusal::WantOfMemory(Call::Plan))?;\n    h().map_err(|_e: AllocError| Fault::WantOfMemory)\n}\n"),
    ("an if let", "fn f() -> R {\n    if let Err(AllocFailed { .. }) = g() {\n        return Err(Fault::WantOfMemory);\n    }\n    Ok(1)\n}\n"),
    ("a condition", "fn f() -> u8 {\n    if e.kind() == clap::error::ErrorKind::OutOfMemory {\n        return want(out, Call::Flagops);\n    }\n    2\n}\n"),
    ("a mark", "struct Printer {\n    /// Memory ran out.\n    wants: bool,\n}\nfn f() -> R {\n    let mut printer = Printer { wants: false };\n    match g() {\n        Ok(n) => Ok(n),\n        Err(AllocError) => {\n            self.wants = true;\n            Err(Refusal::Unloaded)\n        }\n    }\n}\n"),
    ("a variant", "fn f() -> R {\n    match g() {\n        Err(LoadFault::WantOfMemory) => return Err(Refusal::Unloaded),\n        Err(Refusal::Unloaded | Refusal::WantOfMemory) => tell(\"out of memory\"),\n        Err(Refusal::Late) => h(),\n    }\n}\nstruct Unloaded<'a> {\n    path: &'a str,\n}\n"),
    ("a request that fits", "fn f(alloc: Global) -> Result<Vec<u8>, AllocError> {\n    Vec::with_capacity(alloc, 12 + document.len())\n}\n"),
    ("words of it", "/// WantOfMemory\nenum Fault {\n    WantOfMemory,\n}\nfn name(self) -> &str\n    ensures { result ≡ AllocError }\n{\n    match self {\n        Fault::WantOfMemory => \"WantOfMemory\",\n        Fault::Other => \"Other\",\n    }\n}\n"),
]


# How often each of two lines is taken, and sources with what is wrong with them.
LISTED = {("crates/a/src/a.rt", "return Err(StreamEnd::WantOfMemory);"): (1, "a frame fails only there"), ("crates/a/src/b.rt", "self.wants = true;"): (2, "two ways")}
FRAME = "fn f() -> R {\n    let Ok(frame) = write_frame() else {\n        return Err(StreamEnd::WantOfMemory);\n    };\n    g(frame)\n}\n"
SECOND = "fn g(snapshot: Snapshot) -> R {\n    if snapshot.number > 5 {\n        return Err(StreamEnd::WantOfMemory);\n    }\n    Ok(1)\n}\n"
MARKS = "fn f(&mut self) {\n    if self.n > 5 {\n        self.wants = true;\n    }\n    self.wants = true;\n}\n"
ONE_LINE = "fn g(snapshot: Snapshot) -> R {\n    if snapshot.number > 5 { return Err(StreamEnd::WantOfMemory); }\n    Ok(1)\n}\n"
COUNTED = [
    ("the lines that are taken", FRAME, MARKS, 0),
    ("moved", "fn e() {}\n" + FRAME, "\n" + MARKS, 0),
    ("a second one", FRAME + SECOND, MARKS, 1),
    ("a second one on one line", FRAME + ONE_LINE, MARKS, 1),
    ("another file's", FRAME, MARKS + SECOND, 1),
    ("one too few", FRAME, MARKS.replace("self.wants = true", "self.wants = false", 1), 1),
    ("none", "", "", 2),
]


def self_test():
    wrong = []
    for name, first, second, count in COUNTED:
        found = faults([("crates/a/src/a.rt", first), ("crates/a/src/b.rt", second)], LISTED)
        if len(found) != count:
            wrong.append(f"{name}: found {found}, wanted {count}")
    wrong += [f"{name}: found {wants_made(source)}, wanted {lines}" for name, source, lines in PLANTED if wants_made(source) != lines]
    wrong += [f"{name}: found {wants_made(source)}" for name, source in KEPT if wants_made(source)]
    print("\n".join(wrong), end="\n" if wrong else "")
    return len(wrong)


if __name__ == "__main__":
    bad = self_test() if sys.argv[1:] == ["self-test"] else check(os.path.join(os.path.dirname(os.path.abspath(__file__)), ".."))
    sys.exit(1 if bad else 0)
