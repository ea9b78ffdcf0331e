"""What the library's code declares for C: its calls by type and its structs; and a file of C that compiles only over a header that has just these."""

import re

# Types of the code, and of the declarations in Rust, as C has them.
NAMED = {
    "u8": "char",
    "c_char": "char",
    "u32": "uint32_t",
    "u64": "uint64_t",
    "usize": "size_t",
    "Handle": "uclboard_pass *",
    "Opaque": "uclboard_pass",
}
NAMED.update(
    {
        name + ending: f"uclboard_{name.lower()}"
        for name in ("Match", "Club", "Row", "Reply")
        for ending in ("OfC", "")
    }
)


def in_c(told: str) -> list[str]:
    """The types of C that stand for a type: a slice is a pointer and a length, and an allocator nothing."""
    if told == "Global":
        return []
    if slice := re.fullmatch(r"&(mut )?\[(\w+)\]", told):
        return [*in_c(f"*{'mut' if slice[1] else 'const'} {slice[2]}"), "size_t"]
    if pointer := re.fullmatch(r"(&mut|\*mut|\*const) (.+)", told):
        (to,) = in_c(pointer[2])
        return [f"{'const ' * (pointer[1] == '*const')}{to} *"]
    return [NAMED[told]]


def calls(text: str) -> dict[str, tuple[list[str], str]]:
    """The calls that a text declares: by the name of each what it takes and what it gives, in types of C."""
    found = re.findall(r"\bfn (uclboard_\w+)\(([^)]*)\)(?: -> (\w+))?", text)
    taken = {name: re.findall(r"\w+: ([^,]+?)(?=,|\s*$)", given) for name, given, _ in found}
    return {
        name: ([it for told in taken[name] for it in in_c(told)], NAMED.get(gives, "void"))
        for name, _, gives in found
    }


def structs(text: str) -> dict[str, list[tuple[str, str, str]]]:
    """The structs of C that a text declares, each with its fields, which have a type and, where they are arrays, a length."""
    found = re.findall(
        r"^#\[repr\(C\)\]\n(?:#[^\n]*\n)*pub struct (\w+) \{\n(.*?)^\}", text, re.M | re.S
    )
    fields = {
        NAMED[name]: re.findall(r"^ *(?:pub )?(\w+): \[?(\w+)(?:; (\w+)\])?,$", body, re.M)
        for name, body in found
        if name in NAMED and name != "Handle"
    }
    return {
        name: [
            (field, NAMED[told], length.replace("NAME", "UCLBOARD_NAME"))
            for field, told, length in them
        ]
        for name, them in fields.items()
    }


def file_of_c(text: str) -> str:
    """A file of C that compiles only where the header has these calls and structs."""
    lines = [
        '#include "uclboard.h"',
        "#define SAME(one, other) _Static_assert(__builtin_types_compatible_p(__typeof__(one), __typeof__(other)), #one)",
    ]
    for name, (taken, gives) in calls(text).items():
        lines += [f"{gives} of_{name}({', '.join(taken) or 'void'});", f"SAME({name}, of_{name});"]
    for name, fields in structs(text).items():
        declared = [f"{told} {field}{length and f'[{length}]'};" for field, told, length in fields]
        lines.append(f"struct of_{name} {{ {' '.join(declared)} }};")
        for field, *_ in fields:
            lines.append(f"SAME((({name} *)0)->{field}, ((struct of_{name} *)0)->{field});")
            lines.append(
                f'_Static_assert(offsetof({name}, {field}) == offsetof(struct of_{name}, {field}), "{name}.{field}");'
            )
        lines.append(
            f'_Static_assert(sizeof({name}) == sizeof(struct of_{name}), "the size of {name}");'
        )
    return "\n".join([*lines, ""])
