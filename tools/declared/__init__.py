"""What the repository says once: include/pef.h, docs/errors.table, docs/codes.table and the first lines of crates, read; and what follows
from them, written."""
import pathlib
from typing import Dict


def files_of_all() -> Dict[pathlib.Path, str]:
    """All files that are written, by their paths."""
    from . import c_tests, codes, crates, error_files, errors, header, packages, python, readers, refusals, rust, structs

    table = errors.read()
    of_errors = {**error_files.files(table), **refusals.files(table)}
    of_errors[header.PATH] = readers.with_readers(of_errors[header.PATH])
    declared = header.Header(of_errors[header.PATH])
    groups = codes.read()
    elsewhere = {*(it.c_name or "" for it in table.rows), *(it.c_name for group in groups.values() for it in group.codes)}
    of_header = {**rust.files(declared), **python.files(declared, elsewhere), **c_tests.files(declared), **packages.files(declared), **structs.files(declared)}
    return {**of_errors, **codes.files(groups, table), **of_header, **crates.files()}
