"""What of a Rattle source is no Rust, and the words that stand in place of others: for rust/translate and bench/plain.

A source becomes plain Rust by cuts, each of a form that is named here, and by a few words in place of others. Each is
an `Edit` of the source's text, so that whoever asks can see what went, and where. A form that is not known here raises
`Unknown`, with the line.
"""
import dataclasses
import re

TOKEN = re.compile(r"""
    (?P<space>\s+) | (?P<comment>//[^\n]*|/\*.*?\*/)
    | (?P<string>b?"(?:\\.|[^"\\])*"|b?r(?P<hashes>\#*)".*?"(?P=hashes))
    | (?P<char>b?'(?:\\[^']*|[^'\\])') | (?P<lifetime>'\w+) | (?P<number>\d\w*(?:\.\d\w*)?) | (?P<word>[^\W\d]\w*)
    | (?P<sign>::|\S)""", re.S | re.X)
GHOST = re.compile(r"ghost\s+\w+\s*(?P<sort>[:=])\s*\{")
CLAUSE = re.compile(r"(requires|ensures|follows)\*?(\s+[a-z_0-9]+)?\s*\{")
MODEL = re.compile(r"impl(<[^{}]*?>)?\s+Model\s+for\s[^{]*\{")
TESTS = re.compile(r"#\[cfg\(test\)\]\s*mod (\w+);")
TACTIC = re.compile(r"#!?\[\s*(tactic|cycle)\b")
ATTRIBUTE = re.compile(r"#!?\[\s*(\w+)")
ATTRIBUTES = {"inline", "default", "cold", "must_use", "derive", "error", "allow", "non_exhaustive"}
NOT_RUST = {"ghost": "a ghost", "final": "a final function", "prove": "prove!", "prove_eq": "prove_eq!",
            "prove_ne": "prove_ne!", "unsafe": "unsafe code", "cfg": "a condition of the build",
            "extern": "a function of C"}
# what each part of the toolchain's `std` is
CORE = {"cell", "cmp", "error", "fmt", "iter", "mem", "ops", "slice", "str"}
KIT_MODULES = {"alloc", "collections", "env", "fs", "io", "simd"}
STD = {"process"}
KIT_CRATES = {"rand_core", "rand_chacha"}
PRELUDE = {"HostRuntime", "String", "Vec"}  # names of the toolchain that a source has without a `use`
# a public method of a socket takes what is `Into` one of these
NEARER, NEARER_CRATES = {"IpEndpoint", "IpListenEndpoint", "UdpMetadata"}, {"sock_tcp", "sock_dgram"}
# the fields on which the buffers of this crate stand
STORAGE, STORAGE_CRATE = {"storage", "payload"}, "net_base"
MACROS = {"format", "vec"}
# methods whose names smoltcp has for others, which are by hand
RENAMED = {"enqueue_one": "enqueue_item", "enqueue_many_with": "enqueue_lent", "dequeue_many_with": "dequeue_shown",
           "dequeue": "dequeue_packet", "dequeue_with": "dequeue_packet_with"}
RENAMED_CRATES = {"net_base", "sock_core", "sock_tcp", "sock_dgram"}
# the addresses are those of Rust's own library: what of theirs is cut, and where their octets are asked for
ADDRESS = re.compile(r"#\[derive\([^]]*\)\]\s*pub struct Ipv[46]Address\(pub \[u8; \d+\]\);|impl Ipv[46]Address \{")
ADDRESSES, ADDRESS_CRATE = {"Ipv4Address": "ipv4", "Ipv6Address": "ipv6"}, "ip_wire"
OCTETS = {"addr", "address", "src_addr", "dst_addr", "v4"}
OCTETS_CRATES = {"ip_wire", "segment_wire", "net_host", "host_cookies", "host_context", "socket_script"}
# what stands on sets of sockets has those that wake tasks, by hand over the proved ones
HOSTS = {"net_host", "host_link", "two_hosts", "hosted_bench", "host_bench", "first_socket"}
WAKING = {"smoltcp_socket": "sockets", "sock_tcp": "sockets::sock_tcp"}
# texts of a crate, and what stands in their place: moments of any number, as smoltcp's; reads of several bytes that are
# spelled as single bytes, for which kit/bytes.rs has calls; and columns that without a heap have fewer places than sockets
# what stands before an item that is there in builds with CUBIC alone
OF_CUBIC = '#[cfg(feature = "socket-tcp-cubic")]\n'
READS = {
    "net_base": {
        "const fn from_micros(micros: i64)": "fn from_micros(micros: impl Into<i64>)",
        "Instant { micros }": "Instant { micros: micros.into() }",
        "const fn from_millis(millis: i64)": "fn from_millis(millis: impl Into<i64>)",
        "Instant::from_micros(millis * 1000)": "Instant::from_micros(millis.into() * 1000)",
        "const fn from_secs(secs: i64)": "fn from_secs(secs: impl Into<i64>)",
        "Instant::from_micros(secs * 1_000_000)": "Instant::from_micros(secs.into() * 1_000_000)",
        "pub struct RingBuffer<'a, T> {\n    storage": "pub struct RingBuffer<'a, T> {\n    pub(crate) storage",
        "pub struct PacketBuffer<'a, H> {\n    payload": "pub struct PacketBuffer<'a, H> {\n    pub(crate) payload",
        "    metadata: RingBuffer<'a, PacketMetadata<H>>,\n    start: usize,\n    length: usize,\n}":
            "    pub(crate) metadata: RingBuffer<'a, PacketMetadata<H>>,\n    pub(crate) start: usize,\n"
            "    pub(crate) length: usize,\n}",
        "    read_at: usize,\n    length: usize,\n}": "    pub(crate) read_at: usize,\n    pub(crate) length: usize,\n}",
    },
    "net_host": {"pub trait Keyed {": "pub trait Keyed: crate::kit::Kept {"},
    "host_bounds": {
        "vec![in alloc; 0u64; count]": "crate::kit::Words::filled(alloc, 0u64, count)",
        "Vec<u64>": "crate::kit::Words",
        "    blocks: Vec<i64>,": "    blocks: crate::kit::Blocks,",
        "    groups: Vec<i64>,": "    groups: crate::kit::Blocks,",
        "high: &mut Vec<i64>": "high: &mut [i64]",
        "least_bounds(alloc, blocks)?": "crate::kit::of_blocks(least_bounds(alloc, blocks))?",
        "least_bounds(alloc, blocks.div_ceil(FAN_OUT))?":
            "crate::kit::of_blocks(least_bounds(alloc, blocks.div_ceil(FAN_OUT)))?",
    },
    "host_index": {"const COUNT: usize = 256;": "const COUNT: usize = crate::kit::KNOWN;"},
    "sock_core": {
        "    ring: RingBuffer<'a, u8>,": "    pub(crate) ring: RingBuffer<'a, u8>,",
        "    /// CUBIC.\n": f"    /// CUBIC.\n    {OF_CUBIC}",
        "            AnyController::Cubic(": f"            {OF_CUBIC}            AnyController::Cubic(",
    },
    "socket_script": {"        tcp::CongestionControl::Cubic =>":
                      f"        {OF_CUBIC}        tcp::CongestionControl::Cubic =>"},
    "drill_lines": {"        b\"cubic\" =>": f"        {OF_CUBIC}        b\"cubic\" =>"},
    "ip_wire": {
        """total = add_sixty_four(total, bytes, at);
        total = add_sixty_four(total, bytes, at + 64);""": "total = total + crate::kit::sixteen_le64(bytes, at);",
        """let first = total + le64_at(bytes, at) + le64_at(bytes, at + 8);
    first + le64_at(bytes, at + 16) + le64_at(bytes, at + 24)""": "total + crate::kit::four_le64(bytes, at)",
        "256 * bytes[at] as usize + bytes[at + 1] as usize": "crate::kit::be16(bytes, at) as usize",
        "65536 * be16_at(bytes, at) as u32 + be16_at(bytes, at + 2) as u32": "crate::kit::be32(bytes, at)",
        "bytes[at] as u64 + 256 * bytes[at + 1] as u64": "crate::kit::le16(bytes, at) as u64",
        "le16_at(bytes, at) + 65536 * le16_at(bytes, at + 2)": "crate::kit::le32(bytes, at) as u64",
        "(le32_at(bytes, at) + 0x1_0000_0000 * le32_at(bytes, at + 4)) as u128": "crate::kit::le64(bytes, at) as u128",
    },
    "bench_parts": {
        """for i in 0..words {
            first = first.wrapping_add(word(bytes, 8 * i));""": """for eight in bytes.chunks_exact(8) {
            first = first.wrapping_add(word(eight, 0));""",
        """let low = half(bytes, at) as u64;
    let high = half(bytes, at + 4) as u64;
    low | (high << 32)""": "crate::kit::le64(bytes, at)",
    },
}
# what a socket remembers for the RFCs' rules alone, which takes no memory in builds without them
OF_RFC = {"recovery": ("Recovery", "Recovery::Open"), "sacked": ("Scoreboard", "NOTHING_TOLD"),
          "undo": ("Undo", "NOTHING_TO_UNDO")}
READS["sock_tcp"] = {
    "    /// CUBIC (RFC 9438).\n": f"    /// CUBIC (RFC 9438).\n    {OF_CUBIC}",
    "            CongestionControl::Cubic =>": f"            {OF_CUBIC}            CongestionControl::Cubic =>",
    "            AnyController::Cubic(": f"            {OF_CUBIC}            AnyController::Cubic(",
    "AnyController, Cubic, NoControl": "self, AnyController, NoControl",
    "Cubic::new()": "congestion::Cubic::new()",
}
for name, (kind, nothing) in OF_RFC.items():
    READS["sock_tcp"][f"    pub(crate) {name}: {kind},"] = f"    pub(crate) {name}: crate::kit::OfRfc<{kind}>,"
    READS["sock_tcp"][f"            {name}: {nothing},"] = f"            {name}: crate::kit::OfRfc::new({nothing}),"
# What a cut or a word is called; `rust/translate --list` prints it.
LIST = {
    "ghost use": "an import for clauses: cut",
    "ghost": "a ghost member, with the comment above it: cut",
    "clause": "requires, ensures or follows: cut",
    "tactic": "an attribute for the prover: cut",
    "tests": "a module of tests, which are the toolchain's: cut, with its file",
    "model": "an impl of Model, and its import: cut",
    "drop": "Drop, derived or as a bound, which says that a value may be dropped: cut",
    "error": "thiserror: its import, derive and attributes are cut; the Display that it derives is written at the end",
    "formatter": "<W: fmt::Write> .. Formatter<W>: cut, .. Formatter<'_>",
    "write_char": "use core::fmt::Write as _, where a formatter's write_char is called: added",
    "crate": "crate:: -> crate::proved::CRATE::, in a library",
    "other": "CRATE:: -> crate::proved::CRATE::, in a program smoltcp_proved::proved::CRATE::",
    "core": f"std:: -> core::, before {', '.join(sorted(CORE))}",
    "kit": f"std:: -> crate::kit::, before {', '.join(sorted(KIT_MODULES))}; {', '.join(sorted(KIT_CRATES))} the same",
    "prelude": f"use crate::kit::{{..}} for {', '.join(sorted(PRELUDE | MACROS))}: added",
    "into": "of public methods of the sockets, x: T -> x: impl Into<T>, and let x = x.into(), for "
            f"{', '.join(sorted(NEARER))}",
    "owned": f"of the buffers of {STORAGE_CRATE}, &'a mut [T] -> crate::kit::Storage<'a, T>, a lent slice or a vector",
    "reads": "of ip_wire and bench_parts, single bytes that make up a number -> crate::kit::le64(bytes, at) and the like; of "
             "net_base, Instant::from_*(i64) -> Instant::from_*(impl Into<i64>); fields of buffers are pub(crate); "
             "of net_host and host_index, for builds without a heap, what is filed is crate::kit::Kept, and the number of "
             "known keys is crate::kit::KNOWN; of host_bounds, words of marks are crate::kit::Words and bounds of blocks "
             "crate::kit::Blocks",
    "renamed": f"of {', '.join(sorted(RENAMED_CRATES))}, methods of buffers whose names smoltcp has for others: "
               + ", ".join(f"{old} -> {new}" for old, new in RENAMED.items()),
    "rules": "of sock_tcp, self.rules -> crate::kit::in_force(self.rules), where it is read: smoltcp's rules alone, in "
             "builds without those of the RFCs; and what a socket remembers for those alone, "
             f"{', '.join(sorted(OF_RFC))}: T -> crate::kit::OfRfc<T>, read by .get() and written by .set(..); and of all "
             "crates, #[cfg(feature = \"socket-tcp-cubic\")] before what is CUBIC's",
    "address": f"Ipv4Address and Ipv6Address of {ADDRESS_CRATE}: cut, those of core::net in their place; "
               "Ipv4Address(x) -> crate::kit::ipv4(x), and .0 of one -> .octets()",
    "waking": f"of {', '.join(sorted(HOSTS))}, smoltcp_socket:: -> crate::sockets::, sock_tcp:: -> crate::sockets::sock_tcp::",
    "main": "fn main(rt: HostRuntime) { -> fn main() { let rt = HostRuntime;",
}


class Unknown(Exception):
    """A form that is not known, and its line."""

    def __init__(self, text, at, form):
        super().__init__(form)
        self.line, self.form = text.count("\n", 0, at) + 1, form


@dataclasses.dataclass(frozen=True)
class Token:
    kind: str
    text: str
    start: int
    end: int


@dataclasses.dataclass(frozen=True)
class Edit:
    """What stands in place of a part of the source, and why: a key of LIST."""
    start: int
    end: int
    new: str
    form: str


def token_at(text, at):
    found = TOKEN.match(text, at)
    return Token(found.lastgroup if found.lastgroup != "hashes" else "string", found.group(0), at, found.end())


def tokens(text):
    """All tokens of a Rust text but its space and comments."""
    at, found = 0, []
    while at < len(text):
        one = token_at(text, at)
        if one.kind not in ("space", "comment"):
            found.append(one)
        at = one.end
    return found


def behind(text, start, opening, closing):
    """The place behind the bracket that closes the one at `start`."""
    depth = 0
    for place in range(start, len(text)):
        depth += (text[place] == opening) - (text[place] == closing)
        if depth == 0:
            return place + 1
    raise Unknown(text, start, "a bracket that is not closed")


def ghost_end(text, found):
    """Where a ghost member ends: behind its default, and the sign that follows."""
    end = behind(text, found.end() - 1, "{", "}")
    default = re.compile(r"\s*=\s*\{").match(text, end)
    if found.group("sort") == ":" and default:
        end = behind(text, default.end() - 1, "{", "}")
    return re.compile(r"\s*[;,]?([ \t]*//[^\n]*)?").match(text, end).end()


def cut_at(text, at):
    """The end and the form of what is to be cut at a place, if anything is."""
    if text.startswith("ghost use", at):
        return text.index(";", at) + 1, "ghost use"
    if found := GHOST.match(text, at):
        return ghost_end(text, found), "ghost"
    if found := CLAUSE.match(text, at):
        return behind(text, found.end() - 1, "{", "}"), "clause"
    if found := MODEL.match(text, at):
        return behind(text, found.end() - 1, "{", "}"), "model"
    if text.startswith("use std::marker::Model;", at):
        return text.index(";", at) + 1, "model"
    if text.startswith("use thiserror::Error;", at):
        return text.index(";", at) + 1, "error"
    if found := TESTS.match(text, at):
        return found.end(), "tests"
    if found := ADDRESS.match(text, at):
        return found.end() if found[0][0] == "#" else behind(text, found.end() - 1, "{", "}"), "address"
    if TACTIC.match(text, at):
        return behind(text, text.index("[", at), "[", "]"), "tactic"
    return None


def begins_above(text, at, kept):
    """Takes `pub`, and the comment above a ghost member, out of the kept tokens; the place where they begin."""
    code = [".".join(one.text for one in kept[-count:]) for count in (1, 4)]
    for count, word in ((1, code[0] == "pub"), (4, code[1] == "pub.(.crate.)")):
        if word:
            at = kept[-count].start
            del kept[-count:]
    while kept and kept[-1].kind == "comment" and not kept[-1].text.startswith("//!"):
        own_line = text[text.rfind("\n", 0, kept[-1].start) + 1:kept[-1].start].strip() == ""
        if not own_line or text[kept[-1].end:at].count("\n") != 1:
            break
        at = kept.pop().start
    return at


def refuse(text, one, kept):
    """Raises for a word or an attribute that is no Rust of this subset."""
    if one.text in NOT_RUST and not (kept and kept[-1].text in ("::", ".")):
        raise Unknown(text, one.start, NOT_RUST[one.text])
    found = ATTRIBUTE.match(text, one.start)
    if found and found.group(1) not in ATTRIBUTES:
        raise Unknown(text, one.start, f"the attribute {found.group(1)}")


def cuts(text):
    """The tokens and comments that stay, and what is cut between them."""
    kept, edits, at = [], [], 0
    while at < len(text):
        one = token_at(text, at)
        found = cut_at(text, at) if one.kind in ("word", "sign") else None
        if found:
            end, form = found
            edits.append(Edit(begins_above(text, at, kept) if form in ("ghost", "address") else at, end, "", form))
            at = end
            continue
        if one.kind in ("word", "sign"):
            refuse(text, one, kept)
        if one.kind != "space":
            kept.append(one)
        at = one.end
    return kept, edits


def derived(code, place):
    """The edits of a list of derives: `Drop` and thiserror's `Error` go, and the attribute where nothing is left."""
    end = next(i for i in range(place, len(code)) if code[i].text == "]")
    names = [i for i in range(place + 4, end) if code[i].kind == "word"]
    gone = {i: {"Drop": "drop", "Error": "error"}[code[i].text] for i in names if code[i].text in ("Drop", "Error")}
    if not gone:
        return []
    if len(gone) == len(names):
        return [Edit(code[place].start, code[end].end, "", form) for form in list(gone.values())[:1]]
    edits = []
    for i, form in gone.items():
        behind_comma = code[i + 1].text == ","
        first, last = (i, i + 1) if behind_comma and i == names[0] else (i - 1, i) if i != names[0] else (i, i)
        edits.append(Edit(code[first].start, code[last].end, "", form))
    return edits


def bounds(code, place):
    """The edit of a `Drop` that is a bound."""
    before, after = code[place - 1], code[place + 1]
    if before.text == "+":
        return [Edit(before.start, code[place].end, "", "drop")]
    if after.text == "+" and before.text == ":":
        return [Edit(code[place].start, after.end, "", "drop")]
    if before.text == ":" and code[place - 3].text == "where":
        end = place + (after.text == ",")
        first = place - 3 if code[end + 1].text in ("{", ";") else place - 2
        return [Edit(code[first].start, code[end].end, "", "drop")]
    if before.text == ":" and after.text in (",", ">", "{"):
        return [Edit(before.start, code[place].end, "", "drop")]
    return []


def formatter(code, place):
    """The edits of a function that writes to any formatter."""
    words = [one.text for one in code[place:place + 7]]
    if words != ["<", "W", ":", "fmt", "::", "Write", ">"]:
        return []
    end = next(i for i in range(place, len(code)) if code[i].text in ("{", ";"))
    shown = [i + 2 for i in range(place, end - 3)
             if [one.text for one in code[i:i + 4]] == ["Formatter", "<", "W", ">"]]
    if not shown:
        return []
    edits = [Edit(code[i].start, code[i].end, "'_", "formatter") for i in shown]
    return [Edit(code[place].start, code[place + 6].end, "", "formatter"), *edits]


def toolchain(text, code, place, root):
    """The edit of a path that begins with `std`."""
    heads = [code[place + 2]]
    if heads[0].text == "{":
        end = next(i for i in range(place, len(code)) if code[i].text == "}")
        heads = [code[i] for i in range(place + 3, end) if code[i].kind == "word" and code[i - 1].text in ("{", ",")]
    places = {"core" if one.text in CORE else "kit" if one.text in KIT_MODULES else
              "std" if one.text in STD else one.text for one in heads}
    one = code[place]
    if places == {"core"}:
        return [Edit(one.start, one.end, "core", "core")]
    if places == {"kit"}:
        return [Edit(one.start, one.end, f"{root}::kit", "kit")]
    if places != {"std"}:
        raise Unknown(text, one.start, f"std::{heads[0].text}")
    return []


def nearer(code, place, crate):
    """The edits of a public method of a socket that takes an endpoint or the like: it takes what is `Into` one."""
    if crate not in NEARER_CRATES or code[place - 1].text != "pub":
        return []
    body = next(i for i in range(place, len(code)) if code[i].text == "{")
    opening = next((i for i in range(place, body) if code[i].text == "(" and
                    "self" in [one.text for one in code[i + 1:i + 4]]), body)
    found = [i for i in range(opening, body) if code[i].text in NEARER and code[i - 1].text == ":"
             and code[i - 2].kind == "word" and code[i + 1].text in (",", ")")]
    lines = [f"\n let {code[i - 2].text} = {code[i - 2].text}.into();" for i in found]
    edits = [Edit(code[i].start, code[i].end, f"impl Into<{code[i].text}>", "into") for i in found]
    return edits + [Edit(code[body].end, code[body].end, line, "into") for line in lines]


def nearest(code, place, texts):
    """The place of the last of these words before a place."""
    return next((i for i in range(place, -1, -1) if code[i].text in texts), 0)


def owned(code, place):
    """The edits of a lent slice on which a buffer stands: it may be a vector of the buffer's own as well."""
    if [one.text for one in code[place + 1:place + 4]] != ["'a", "mut", "["]:
        return []
    end = next(i for i in range(place, len(code)) if code[i].text == "]")
    method = nearest(code, place, ("fn", "struct"))
    is_parameter = code[method].text == "fn" and code[place - 1].text == ":"
    before, after = ("impl Into<", ">") if is_parameter else ("", "")
    edits = [Edit(code[place].start, code[place + 3].end, f"{before}crate::kit::Storage<'a, ", "owned"),
             Edit(code[end].start, code[end].end, f">{after}", "owned")]
    if is_parameter:
        body = next(one for one in code[place:] if one.text == "{")
        name = code[place - 2].text
        edits.append(Edit(body.end, body.end, f"\n let {name} = {name}.into();", "owned"))
    return edits


def lent_again(code, place):
    """The edit of such a slice as a whole, where it is handed on."""
    if [one.text for one in code[place:place + 2]] != ["self", "."] or code[place + 2].text not in STORAGE or \
            code[place + 3].text not in (",", ")", "}"):
        return []
    method = nearest(code, place, ("fn",))
    receiver = next(i for i in range(method, place) if code[i].text == "self")
    word = "&mut " if code[receiver - 1].text == "mut" else "&"
    return [Edit(code[place].start, code[place].start, word, "owned")]


def of_buffers(code, place, crate):
    """The edits of the buffers' storage, which is of one crate."""
    return owned(code, place) + lent_again(code, place) if crate == STORAGE_CRATE else []


def program_main(text, code, place):
    """The edits of a program's `main`, which gets what it is handed by a name."""
    if [one.text for one in code[place:place + 7]] != ["fn", "main", "(", "rt", ":", "HostRuntime", ")"]:
        raise Unknown(text, code[place].start, "a main that takes something else")
    body = next(one for one in code[place:] if one.text == "{")
    return [Edit(code[place + 3].start, code[place + 5].end, "", "main"),
            Edit(body.end, body.end, "\n    let rt = HostRuntime;", "main")]


def paths(text, code, place, crate, crates, root):
    """The edits of a word that begins a path."""
    one, before, after = code[place], code[place - 1].text if place else "", code[place + 1].text
    if before in ("::", ".") or (after != "::" and before != "use"):
        return []
    if one.text == "crate" and after == "::" and root == "crate":
        return [Edit(one.start, one.end, f"crate::proved::{crate}", "crate")]
    if one.text == "std" and after == "::":
        return toolchain(text, code, place, root)
    if crate in HOSTS and one.text in WAKING:
        return [Edit(one.start, one.end, f"{root}::{WAKING[one.text]}", "waking")]
    if one.text in crates:
        return [Edit(one.start, one.end, f"{root}::proved::{one.text}", "other")]
    if one.text in KIT_CRATES:
        return [Edit(one.start, one.end, f"{root}::kit::{one.text}", "kit")]
    return []


def head_end(text, kept):
    """Where the first token stands that is neither a comment on the file nor an attribute of it."""
    place = 0
    while place < len(kept):
        if kept[place].text == "#" and kept[place + 1].text == "!":
            place = next(i for i in range(place, len(kept)) if kept[i].text == "]") + 1
        elif kept[place].text.startswith("//!"):
            place += 1
        else:
            return kept[place].start
    return len(text)


def links(kept, crate, root):
    """The edits of comments that link to a path in the crate."""
    places = [one.start + found.start(1) for one in kept if one.kind == "comment" and root == "crate"
              for found in re.finditer(r"\]\((crate)::", one.text)]
    return [Edit(at, at + len("crate"), f"crate::proved::{crate}", "crate") for at in places]


def imports(text, kept, code, root):
    """The edit that adds what the toolchain's prelude has, and what a formatter's `write_char` needs."""
    used = {one.text for one in code if one.kind == "word"}
    named = {one.text for i, one in enumerate(code) if one.text in MACROS and code[i + 1].text == "!"}
    wanted = sorted((used & PRELUDE) | named)
    lines, at = [], head_end(text, kept)
    if wanted:
        names = wanted[0] if len(wanted) == 1 else "{" + ", ".join(wanted) + "}"
        lines.append(Edit(at, at, f"use {root}::kit::{names};\n", "prelude"))
    if "pub struct Ipv4Address(" in text:
        lines.append(Edit(at, at, "pub use core::net::{Ipv4Addr as Ipv4Address, Ipv6Addr as Ipv6Address};\n", "address"))
    if "write_char" in used:
        lines.append(Edit(at, at, "use core::fmt::Write as _;\n", "write_char"))
    if lines and not text.startswith("use ", at):
        lines[-1] = dataclasses.replace(lines[-1], new=lines[-1].new + "\n")
    return lines


def reads(text, crate):
    """The edits of reads of several bytes."""
    found = [(one, new) for old, new in READS.get(crate, {}).items() for one in re.finditer(re.escape(old), text)]
    return [Edit(one.start(), one.end(), new, "reads") for one, new in found]


def addresses(code, place, crate, root):
    """The edits of an address that is made of its octets, or asked for them."""
    one, before = code[place], [code[i].text if i >= 0 else "" for i in (place - 2, place - 1)]
    if one.text in ADDRESSES and code[place + 1].text == "(":
        return [Edit(one.start, one.end, f"{root}::kit::{ADDRESSES[one.text]}", "address")]
    if crate not in OCTETS_CRATES or [code[i].text for i in (place + 1, place + 2) if i < len(code)] != [".", "0"]:
        return []
    lent = one.text in ("a", "b", "src", "dst") and (before[1] == "&" or before == ["from_be_bytes", "("])
    zero = code[place + 2]
    return [Edit(zero.start, zero.end, "octets()", "address")] if lent or one.text in OCTETS else []


def rules(code, place, crate):
    """The edits of a read of a socket's rules."""
    if crate != "sock_tcp" or [one.text for one in code[place:place + 3]] != ["self", ".", "rules"]:
        return []
    last = code[place + 2]
    if code[place + 3].text == "=" and code[place + 4].text != "=":
        return []
    return [Edit(code[place].start, code[place].start, "crate::kit::in_force(", "rules"),
            Edit(last.end, last.end, ")", "rules")]


def impls(code):
    """The type of each impl, and where it begins and ends."""
    for place, one in enumerate(code):
        if one.text != "impl" or (place and code[place - 1].text not in ("}", ";", "]")):
            continue
        opens = next(i for i in range(place, len(code)) if code[i].text == "{")
        header = [code[i].text for i in range(place + 1, opens)]
        if header[0] == "<":
            header = header[header.index(">") + 1:]
        name = header[header.index("for") + 1] if "for" in header else header[0]
        yield name, opens, closing(code, opens)


def closing(code, opens):
    """The place of the bracket that closes the one at a place."""
    depth = 0
    for place in range(opens, len(code)):
        depth += (code[place].text in "([{") - (code[place].text in ")]}")
        if depth == 0:
            return place
    raise AssertionError("brackets")


def of_rfc(code, crate):
    """The edits of what a socket remembers for the RFCs' rules alone."""
    if crate != "sock_tcp":
        return []
    own = [(opens, end) for name, opens, end in impls(code) if name == "ControlBlock"]
    edits = []
    for place in range(1, len(code) - 3):
        name = code[place].text
        if name not in OF_RFC or code[place - 1].text != ".":
            continue
        whose = code[place - 2].text
        if whose != "after" and not (whose == "self" and any(opens < place < end for opens, end in own)):
            continue
        if code[place + 1].text == "=" and code[place + 2].text != "=":
            end, depth = place + 1, 0
            while code[end].text != ";" or depth:
                depth += (code[end].text in "([{") - (code[end].text in ")]}")
                end += 1
            edits += [Edit(code[place + 1].start, code[place + 1].end, ".set(", "rules"),
                      Edit(code[end].start, code[end].start, ")", "rules")]
        else:
            edits.append(Edit(code[place].end, code[place].end, ".get()", "rules"))
    return edits


def words(text, kept, crate, crates, root):
    """The words that stand in place of others, and the cuts that need more than one token to be seen."""
    code, edits = [one for one in kept if one.kind != "comment"], links(kept, crate, root)
    edits += of_rfc(code, crate)
    for place, one in enumerate(code[:-1]):
        edits += of_buffers(code, place, crate) + rules(code, place, crate)
        if one.text == "#" and code[place + 2].text == "derive":
            edits += derived(code, place)
        elif one.text == "#" and code[place + 2].text == "error":
            edits.append(Edit(one.start, behind(text, code[place + 1].start, "[", "]"), "", "error"))
        elif one.text == "Drop":
            edits += bounds(code, place)
        elif one.text == "<":
            edits += formatter(code, place)
        elif one.text == "fn" and code[place + 1].text == "main" and root != "crate" and code[place + 3].text != ")":
            edits += program_main(text, code, place)
        elif one.text == "fn":
            edits += nearer(code, place, crate)
        elif one.text in RENAMED and crate in RENAMED_CRATES:
            edits.append(Edit(one.start, one.end, RENAMED[one.text], "renamed"))
        elif one.kind == "word":
            edits += paths(text, code, place, crate, crates, root) + addresses(code, place, crate, root)
    return edits + reads(text, crate) + imports(text, kept, code, root)


def whole_lines(text, edit):
    """The cut with the ends of its lines, where nothing else stands on them."""
    start, end = text.rfind("\n", 0, edit.start) + 1, text.find("\n", edit.end) + 1
    alone = edit.end > edit.start and not edit.new and not (text[start:edit.start] + text[edit.end:end]).strip()
    return dataclasses.replace(edit, start=start, end=end) if alone and end else edit


def edits_of(text, crate, crates, root):
    """What a source of a crate needs to be plain Rust. `crates` are those that are translated; `root` is `crate` in a
    library, and the library's name in a program."""
    kept, edits = cuts(text)
    edits = [whole_lines(text, edit) for edit in edits + words(text, kept, crate, crates, root)]
    return sorted(edits, key=lambda edit: (edit.start, edit.end))


def edited(text, edits):
    parts, at = [], 0
    for edit in edits:
        if edit.start < at:
            raise Unknown(text, edit.start, f"{edit.form} within another form")
        parts += [text[at:edit.start], edit.new]
        at = edit.end
    return "".join([*parts, text[at:]])


def variants(text, code, place):
    """The name of the enum at a place, and of each variant its name, how many fields it has, and its message."""
    name, found, place = code[place + 1].text, [], place + 2
    if code[place].text != "{":
        raise Unknown(text, code[place].start, "thiserror on an enum with parameters")
    place += 1
    while code[place].text != "}":
        if [one.text for one in code[place:place + 3]] != ["#", "[", "error"]:
            raise Unknown(text, code[place].start, "a variant without a message of thiserror")
        message, variant = code[place + 4], code[place + 7]
        place, fields = place + 8, 0
        if code[place].text == "(":
            end = next(i for i in range(place, len(code)) if code[i].text == ")")
            fields = 1 + sum(one.text == "," for one in code[place:end])
            place = end + 1
        if code[place].text == "{":
            raise Unknown(text, code[place].start, "thiserror on a variant with named fields")
        place += code[place].text == ","
        found.append((variant.text, fields, message))
    return name, found


def arm(name, variant, fields, message):
    bound = [f"_{i}" for i in range(fields)]
    pattern = f"{name}::{variant}" + (f"({', '.join(bound)})" if bound else "")
    if message.text == "transparent":
        return f"{pattern} => core::fmt::Display::fmt(_0, f),"
    if not bound:
        return f"{pattern} => f.write_str({message.text}),"
    return f"{pattern} => write!(f, {', '.join([message.text, *bound])}),"


def displays(text):
    """What thiserror derives for the enums of a source: `Display`, and `Error`."""
    code, written = [one for one in cuts(text)[0] if one.kind != "comment"], []
    for place, one in enumerate(code):
        if one.text != "Error" or code[place - 1].text not in (",", "(") or code[place + 1].text not in (")", ","):
            continue
        start = next((i for i in range(place, min(place + 12, len(code))) if code[i].text in ("enum", "struct")), None)
        if start is None:
            continue
        if code[start].text == "struct":
            raise Unknown(text, code[start].start, "thiserror on a struct")
        name, found = variants(text, code, start)
        arms = "\n".join(arm(name, *one) for one in found)
        written.append(f"\n// What thiserror derives.\nimpl core::fmt::Display for {name} {{\n"
                       f"fn fmt(&self, f: &mut core::fmt::Formatter<'_>) -> core::fmt::Result {{\n"
                       f"match self {{\n{arms}\n}}\n}}\n}}\n\nimpl core::error::Error for {name} {{}}\n")
    return "".join(written)


def plain(text, crate, crates, root):
    """The source as plain Rust, not formatted yet."""
    return edited(text, edits_of(text, crate, crates, root)) + displays(text)
