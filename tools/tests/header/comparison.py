"""Compares a header with the sources of its library."""
import os
from collections.abc import Iterator

from header.declarations import Declarations, Function


def suffixes(numbering: dict[str, int]) -> dict[str, int]:
    """Returns an enum of C without the prefix that its names share, up to an underscore."""
    shared = (
        os.path.commonprefix(list(numbering)) if len(numbering) > 1 else next(iter(numbering), "").split("_")[0] + "_"
    )
    return {name[shared.rfind("_") + 1 :]: number for name, number in numbering.items()}


def nearest(wanted: dict[str, int], known: list[tuple[str, dict[str, int]]]) -> str:
    """Returns the list that shares most names with an enum, and each number in which they differ, as the end of a sentence."""
    name, near = max(known, key=lambda it: len(set(it[1]) & set(wanted)))
    differ = [
        f"{it} is {wanted[it] if it in wanted else 'missing'} in the header, {near[it] if it in near else 'missing'} in the sources"
        for it in sorted(set(wanted) | set(near))
        if wanted.get(it, -1) != near.get(it, -1)
    ]
    return f"; {name} is nearest: {', '.join(differ)}"


def numbers_differ(header: Declarations, crate: Declarations, below: Declarations) -> Iterator[str]:
    """Yields each enum that is not, name by name, a numbering of the sources, and each numbering of the library that is no enum."""
    known = [*crate.numberings.items(), *below.numberings.items()]
    constants = {name: number for numbering in crate.numberings.values() for name, number in numbering.items()}
    matched = set()
    for enum, numbering in header.numberings.items():
        wanted = suffixes(numbering)
        if len(wanted) == 1 and wanted.items() <= constants.items():
            matched |= {name for name, numbers in crate.numberings.items() if set(wanted) <= set(numbers)}
            continue
        same = [name for name, numbers in known if numbers == wanted]
        matched |= set(same)
        if not same:
            yield f"{enum}: no numbering of the sources has these names and numbers{nearest(wanted, known)}"
    for name in crate.numberings:
        if name not in matched:
            yield f"{name}: no enum of the header has these names and numbers"


class Types:
    """Pairs each struct of the header with the struct of the sources that the calls have at the same place."""

    def __init__(self) -> None:
        self.sources: dict[str, str] = {}

    def agree(self, declared: str, exported: str) -> bool:
        """Returns whether a type of the header and one of the sources are the same; the first call for a struct makes the pair."""
        declared_name, exported_name = (
            it.removeprefix("const ").removeprefix("struct ").rstrip(" *") for it in (declared, exported)
        )
        if declared.replace(declared_name, "", 1) != exported.replace(exported_name, "", 1):
            return False
        if "struct " not in declared:
            return declared_name == exported_name
        known = self.sources.setdefault(declared_name, exported_name)
        return known == exported_name and list(self.sources.values()).count(exported_name) == 1


def parameters_differ(declared: Function, exported: Function, types: Types) -> Iterator[str]:
    """Yields what differs between the parameters of a declaration and those of the export."""
    if len(declared.parameters) != len(exported.parameters):
        yield f"{declared.name}: {len(declared.parameters)} parameters in the header, {len(exported.parameters)} there"
        return
    for place, (one, other) in enumerate(zip(declared.parameters, exported.parameters), 1):
        if not types.agree(one.type, other.type):
            yield f"{declared.name}: parameter {place} is `{one.type}` in the header, `{other.type}` there"
    # Types alone do not show an exchange of two parameters of one type, so their names are compared. One of each type may have another name in the header.
    kinds = {item.type for item in declared.parameters}
    for kind in kinds:
        pairs = [
            (one.name, other.name) for one, other in zip(declared.parameters, exported.parameters) if one.type == kind
        ]
        ours, theirs = [one for one, _ in pairs], [other for _, other in pairs]
        renamed = [one for one in ours if one not in theirs]
        if any(one != other for one, other in pairs if one not in renamed) or len(renamed) > 1:
            yield f"{declared.name}: the parameters of the type `{kind}` are {', '.join(ours)} in the header, {', '.join(theirs)} there"


def functions_differ(header: Declarations, crate: Declarations, types: Types) -> Iterator[str]:
    """Yields what differs between declared and exported functions."""
    for name in sorted(set(header.functions) | set(crate.functions)):
        if name not in crate.functions:
            yield f"{name}: declared in the header, and exported by nothing"
        elif name not in header.functions:
            yield f"{name}: exported, and not declared in the header"
        else:
            declared, exported = header.functions[name], crate.functions[name]
            if not types.agree(declared.result, exported.result):
                yield f"{name}: it returns `{declared.result}` in the header, `{exported.result}` in the sources"
            yield from parameters_differ(declared, exported, types)


def fields_differ(header: Declarations, other: Declarations, types: Types) -> Iterator[str]:
    """Yields what differs between the structs that calls have at the same place: a field's name, place or type."""
    for name, paired in types.sources.items():
        ours, theirs = header.structs.get(name), other.structs.get(paired)
        if (ours is None) != (theirs is None):
            yield f"struct {name}: only {'the header' if ours else 'the other side'} declares its fields ({paired})"
        elif ours is not None and theirs is not None:
            shown = [", ".join(f"{it.type} {it.name}" for it in fields) for fields in (ours, theirs)]
            if [it.name for it in ours] != [it.name for it in theirs] or not all(
                types.agree(a.type, b.type) for a, b in zip(ours, theirs)
            ):
                yield f"struct {name}: its fields are {shown[0]}; those of {paired} are {shown[1]}"


def structs_differ(header: Declarations, crate: Declarations, types: Types) -> Iterator[str]:
    """Yields what differs between structs, and those that no call has."""
    yield from fields_differ(header, crate, types)
    for name in sorted(set(header.structs) - set(types.sources)):
        yield f"struct {name}: no call has it"
    for name in sorted(set(crate.structs) - set(types.sources.values())):
        yield f"{name}: no call that is declared has it"


def differences(header: Declarations, crate: Declarations, below: Declarations) -> list[str]:
    """Returns what differs between a header and its library, a line each.

    `below` are the crates that the library uses: an enum may have its numbers from there, but not each numbering there has an enum.
    """
    types = Types()
    return [
        *(f"not read: {piece}" for piece in header.unread + crate.unread),
        *numbers_differ(header, crate, below),
        *functions_differ(header, crate, types),
        *structs_differ(header, crate, types),
    ]


def enum_of(header: Declarations, numbers: dict[str, int]) -> tuple[str, dict[str, int]]:
    """Returns the enum of the header that shares most names with a numbering of a binding."""
    enums = [(enum, suffixes(numbering)) for enum, numbering in header.numberings.items()]
    return max(enums, key=lambda it: len(set(it[1]) & set(numbers)))


def binding_differences(header: Declarations, binding: Declarations) -> list[str]:
    """Returns what differs between a header and a binding, which may declare only a part of it."""
    types, found = Types(), [f"not read: {piece}" for piece in binding.unread]
    for name, bound in binding.functions.items():
        declared = header.functions.get(name)
        if declared is None:
            found.append(f"{name}: the header does not declare it")
        else:
            found += (
                []
                if types.agree(declared.result, bound.result)
                else [f"{name}: it returns `{declared.result}` in the header, `{bound.result}` in the binding"]
            )
            found += parameters_differ(declared, bound, types)
    for name, numbers in binding.numberings.items():
        enum, wanted = enum_of(header, numbers)
        found += [
            f"{name}: {it} is {wanted[it]} in {enum}, {numbers[it]} in the binding"
            for it in numbers
            if it in wanted and wanted[it] != numbers[it]
        ]
    return [*found, *fields_differ(header, binding, types)]
