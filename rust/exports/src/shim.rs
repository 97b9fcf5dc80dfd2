//! The library's exports in C, for every machine but the one that the kit compiles for: each calls the function of the
//! proved module that its own thunk calls. C decides how a struct is handed over on the machine at hand. To the module every
//! struct and every slice goes by a pointer: `module` writes a function for that beside each inner one.

use crate::c::{declared, plain};
use crate::library::{is_number, Library, Part};
use crate::names::field;
use crate::source::{Function, Type};

const TOP: &str = "\
/*
 * The exports of include/mortisevane.h over the functions of the proved module, which are made visible to this file
 * alone. Written from the Rattle source by `rust/exports`, as the header is.
 */
#include \"mortisevane.h\"

/* A slice as the module has it on every machine: the pointer in the first eight bytes, the length in the next. */
struct lent {
    _Alignas(8) const void *first;
    _Alignas(8) uint64_t length;
};

_Static_assert(sizeof(struct lent) == 16, \"a slice of the module is 16 bytes\");
_Static_assert(offsetof(struct lent, length) == 8, \"the length of a slice stands at 8\");
";

/// On a board records are copied often, and its C library may copy byte by byte. What the compiler calls for it is here,
/// seen by this file alone.
const MEMORY: &str = "
#if __SIZEOF_POINTER__ == 4
#define OWN static __attribute__((used))
#define ONCE static __attribute__((noinline, minsize))
#define COPY __attribute__((alias(\"copy\")))

/*
 * Four words at a time where both ends are at a multiple of four bytes, then two and one, and the rest byte by byte. A
 * loop with its question at the end is the shorter one on a board.
 */
ONCE void copy(void *to, const void *from, size_t length)
{
    uint32_t *to_words = to;
    const uint32_t *from_words = from;

    if ((((size_t)to | (size_t)from) & 3) == 0) {
        const uint32_t *end = from_words + length / 16 * 4;
        if (from_words != end) {
            do {
                uint32_t first = from_words[0], second = from_words[1], third = from_words[2], fourth = from_words[3];
                from_words += 4;
                to_words[0] = first;
                to_words[1] = second;
                to_words[2] = third;
                to_words[3] = fourth;
                to_words += 4;
            } while (from_words != end);
        }
        if ((length & 8) != 0) {
            uint32_t first = from_words[0], second = from_words[1];
            from_words += 2;
            to_words[0] = first;
            to_words[1] = second;
            to_words += 2;
        }
        if ((length & 4) != 0)
            *to_words++ = *from_words++;
        length &= 3;
    }
    uint8_t *to_bytes = (uint8_t *)to_words;
    const uint8_t *from_bytes = (const uint8_t *)from_words;
    for (; length > 0; length--)
        *to_bytes++ = *from_bytes++;
}

/* A word at a time where it begins at a multiple of four bytes. */
ONCE void fill(void *to, uint8_t byte, size_t length)
{
    uint32_t *words = to;

    if (((size_t)to & 3) == 0) {
        for (uint32_t word = byte * 0x01010101u; length >= 4; length -= 4)
            *words++ = word;
    }
    for (uint8_t *bytes = (uint8_t *)words; length > 0; length--)
        *bytes++ = byte;
}

#ifdef __arm__
/* No floating point crosses, so the library goes with programs of either manner of handing it over. */
__asm__(\".eabi_attribute 28, 3\");

/* The same function by the three names of Arm's convention, so that no call goes by way of another. */
OWN COPY void __aeabi_memcpy(void *to, const void *from, size_t length);
OWN COPY void __aeabi_memcpy4(void *to, const void *from, size_t length);
OWN COPY void __aeabi_memcpy8(void *to, const void *from, size_t length);

OWN void __aeabi_memclr(void *to, size_t length)
{
    fill(to, 0, length);
}

OWN void __aeabi_memclr4(void *to, size_t length)
{
    fill(to, 0, length);
}

OWN void __aeabi_memclr8(void *to, size_t length)
{
    fill(to, 0, length);
}
#else
OWN void *memcpy(void *to, const void *from, size_t length)
{
    copy(to, from, length);
    return to;
}

OWN void *memset(void *to, int byte, size_t length)
{
    fill(to, (uint8_t)byte, length);
    return to;
}
#endif
#endif
";

/// The name that the function after an export has in the module.
pub fn inner(part: &Part, function: &Function) -> String {
    format!("{}::{}", part.place.join("::"), function.name)
}

/// The name of the function of the module that the shim calls: it takes structs and slices by a pointer and calls the inner
/// one.
pub fn by_pointers(inner: &str) -> String {
    format!("{inner}::by_pointers")
}

/// What that function takes for a parameter, in C's words: a number as it is and anything else by a pointer.
fn taken(kind: &Type) -> String {
    match kind {
        Type::Plain(name) if name == "usize" => "uint64_t".to_string(),
        Type::Plain(name) if is_number(name) => plain(name),
        Type::Plain(name) | Type::Array(name, _) => format!("{} *", plain(name)),
        Type::Slice(..) => "const struct lent *".to_string(),
    }
}

/// How an argument is handed to it.
fn handed(name: &str, kind: &Type) -> String {
    match kind {
        Type::Plain(kind) if is_number(kind) => name.to_string(),
        Type::Plain(_) | Type::Array(..) => format!("&{name}"),
        Type::Slice(..) => format!("&lent_{name}"),
    }
}

fn function(part: &Part, known: &Function) -> String {
    let (Type::Plain(answer) | Type::Array(answer, _) | Type::Slice(answer, _)) = &known.answer;
    let is_number = is_number(answer);
    let bare = known.name.trim_start_matches("mortisevane_");
    let kinds = known.parameters.iter().map(|parameter| taken(&parameter.kind));
    let place = (!is_number).then(|| format!("{} *", plain(answer)));
    let kinds: Vec<String> = place.into_iter().chain(kinds).collect();
    let gives = match answer.as_str() {
        "usize" => "uint64_t".to_string(),
        _ if is_number => plain(answer),
        _ => "void".to_string(),
    };
    let parameters: Vec<String> = known.parameters.iter().map(declared).collect();
    let parameters = if parameters.is_empty() { "void".to_string() } else { parameters.join(", ") };
    let mut body = String::new();
    for parameter in &known.parameters {
        if let Type::Slice(..) = parameter.kind {
            let name = field(&parameter.name);
            body.push_str(&format!("    struct lent lent_{name} = {{ {name}, {name}_length }};\n"));
        }
    }
    let arguments = known.parameters.iter().map(|parameter| handed(field(&parameter.name), &parameter.kind));
    let place = (!is_number).then(|| "&answer".to_string());
    let arguments: Vec<String> = place.into_iter().chain(arguments).collect();
    let call = format!("inner_{bare}({})", arguments.join(", "));
    body.push_str(&match answer.as_str() {
        "usize" => format!("    return (size_t){call};\n"),
        _ if is_number => format!("    return {call};\n"),
        _ => format!("    {} answer;\n    {call};\n    return answer;\n", plain(answer)),
    });
    let label = by_pointers(&inner(part, known));
    format!(
        "\n{gives} inner_{bare}({}) __asm__(\"{label}\");\n\n{} {}({parameters})\n{{\n{body}}}\n",
        kinds.join(", "),
        plain(answer),
        known.name
    )
}

pub fn source(library: &Library) -> String {
    let mut text = format!("{TOP}{MEMORY}");
    for part in &library.parts {
        text.extend(part.functions.iter().map(|known| function(part, known)));
    }
    text
}
