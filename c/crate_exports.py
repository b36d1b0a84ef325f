"""What c/abi reads: the calls and structs of the crate's exports (crates/smoltcp_c/src), and how C lays them out."""
import pathlib
import re

ROOT = pathlib.Path(__file__).resolve().parent.parent
SOURCES = ROOT / "crates" / "smoltcp_c" / "src"
WIDTHS = {"u8": "uint8_t", "u16": "uint16_t", "u32": "uint32_t", "u64": "uint64_t", "i64": "int64_t", "usize": "size_t"}
BYTES = {"u8": 1, "u16": 2, "u32": 4, "u64": 8, "i64": 8, "usize": 8}
# What the crate calls several structs of one form, and what C and Rust call it.
NAMES = {
    "Cx": "Context", "Agreed": "Negotiated", "UdpNumbers": "UdpMetadata", "BytesBack": "Bytes", "TcpRoom": "TcpHandle",
    "UdpRoom": "UdpHandle", "UdpPlaceRoom": "UdpHandle", "UdpPlaces": "Places", "UdpPlacesBack": "Places",
    "RawRoom": "RawHandle", "RawPlaceRoom": "RawHandle", "RawPlaces": "Places", "RawPlacesBack": "Places",
    "IcmpRoom": "IcmpHandle", "IcmpPlaceRoom": "IcmpHandle", "IcmpPlaces": "Places", "IcmpPlacesBack": "Places",
    "HostRoom": "HostHandle",
}
KINDS = ["sizes", "tcp", "udp", "raw", "icmp", "host"]


class Export:
    """A call of the library: its name without _nonnull, its arguments as (name, type) of the crate, and whether the
    contract says that the socket, or the host, stays."""

    def __init__(self, name, args, reads):
        self.name, self.args, self.reads = name.removesuffix("_nonnull"), args, reads
        self.kind = self.name.split("_")[1]


def plain(text):
    """A text without comments, its white space being single spaces."""
    return re.sub(r"\s+", " ", re.sub(r"//[^\n]*", " ", text))


def source(files):
    return plain("\n".join(path.read_text() for path in sorted(SOURCES.glob(files))))


def exports(text):
    found = []
    for name, args, told in re.findall(r'pub (?:unsafe )?extern "C" fn (\w+) ?\(([^{]*?)\) -> i64(.*?)\{ ', text):
        pairs = [tuple(a.strip(" ,").split(": ", 1)) for a in args.split(", ") if ":" in a]
        pairs = [pair for pair in pairs if pair[1] != "Global"]  # takes no bytes: C passes nothing for it
        body = text.split(f" fn {name}(", 1)[1].split(' extern "C" fn ', 1)[0]
        found.append(Export(name, pairs, bool(re.search(r"ensures same \{ h\.new\.(\w+) ≡ h\.old\.\1 \}", body))))
    return sorted(found, key=lambda call: (KINDS.index(call.kind), call.name))


def structs(text):
    """The structs of the library by their names in C and Rust: fields as (name, type) of the crate."""
    text = re.sub(r"pub ghost \w+: \{[^}]*\}(?: by \{[^}]*\})?,", "", text)
    found = {}
    for name, body in re.findall(r"#\[repr\(C\)\] (?:#\[[^\]]*\] )?pub struct (\w+)(?:<'b>)? \{(.*?)\} ", text):
        found[NAMES.get(name, name)] = re.findall(r"pub (\w+): ([^,]+),", body)
    return found


def layout(kind, known):
    """The size of a type in bytes, and its alignment, as C and Rust lay it out."""
    if kind in BYTES:
        return BYTES[kind], BYTES[kind]
    if kind.startswith("*"):
        return 8, 8
    array = re.fullmatch(r"\[(\w+); (\d+)\]", kind)
    if array:
        size, align = layout(array[1], known)
        return size * int(array[2]), align
    size, most = 0, 1
    for _, field in known[NAMES.get(kind, kind)]:
        part, align = layout(field, known)
        size, most = -(-size // align) * align + part, max(most, align)
    return -(-size // most) * most, most


def snake(name):
    return re.sub(r"(?<!^)([A-Z])", r"_\1", name).lower()


def in_c(kind):
    """A type of the crate in C, without its star and without its count: (words, star, count)."""
    array = re.fullmatch(r"\[(\w+); (\d+)\]", kind)
    if array:
        return in_c(array[1])[0], "", f"[{array[2]}]"
    lent = re.fullmatch(r"(&|&mut |\*mut |\*const )?(?:'_ )?(\w+)(?:<'_>)?", kind)
    const = "const " if lent[1] in ("&", "*const ") else ""
    word = WIDTHS.get(lent[2]) or "struct smoltcp_" + snake(NAMES.get(lent[2], lent[2]))
    return const + word, "*" if lent[1] else "", ""


def owner(kind):
    """What lies where a handle of this type leads to, in C: tcp, host and so on; None of another type."""
    word = re.sub(r"^&(mut )?", "", kind)
    word = NAMES.get(word, word)
    return word.removesuffix("Handle").lower() if word.endswith("Handle") else None


def pointed(name, kind):
    """Whether an argument is where a socket lies, by value, in place of a handle that leads there."""
    return (name, kind) == ("at", "*mut u8")


def public(kind):
    """What a documented call takes in place of a handle of this type, by name."""
    return "host" if owner(kind) == "host" else "s"


def c_args(call, documented=False):
    """The arguments in C; of a documented call, memory in place of a handle."""
    args = []
    for name, kind in call.args:
        items = re.fullmatch(r"&(mut )?\[(\w+)\]", kind)
        if documented and owner(kind):
            const = "const " if call.reads and name == "h" else ""
            args.append(f"{const}struct smoltcp_{owner(kind)} *{public(kind)}")
        elif documented and pointed(name, kind):
            args.append(f"struct smoltcp_{call.kind} *s")
        elif items:
            word = in_c(("&mut " if items[1] else "&") + items[2])[0]
            count = "count" if items[2] != "u8" else "cap" if items[1] else "len"
            args += [f"{word} *{name}", f"size_t {count}"]
        else:
            word, star, _ = in_c(kind)
            args.append(f"{word} {star}{name}")
    return args


def wrapped(head, args, tail, limit=120):
    """head(args)tail in lines of at most so many columns."""
    lines, line = [], head + "("
    for n, arg in enumerate(args or ["void"]):
        word = arg + ("," if n + 1 < len(args) else ")" + tail)
        if len(line) + 1 + len(word) > limit:
            lines.append(line)
            line = " " * (len(head) + 1) + word
        else:
            line += word if line.endswith("(") else " " + word
    return "\n".join(lines + [line]) + "\n"
