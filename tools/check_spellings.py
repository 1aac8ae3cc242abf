#!/usr/bin/env python3
"""Check that the project's lists of spellings and of their display forms are those of the Rust original.

    check_spellings.py TOKENIZER_RS SPELLINGS_ANTT FORMS_ANTT
"""

import sys

sys.dont_write_bytecode = True
from spellings import antt_row, forms_of_antt, forms_of_rust, rows_of_antt, rows_of_rust


def main():
    if len(sys.argv) != 4:
        sys.exit("usage: check_spellings.py TOKENIZER_RS SPELLINGS_ANTT FORMS_ANTT")
    wanted, found = rows_of_rust(sys.argv[1]), rows_of_antt(sys.argv[2])
    faults = [f"missing: {antt_row(row)}" for row in wanted if row not in found]
    faults += [f"not in the original: {antt_row(row)}" for row in found if row not in wanted]
    for before, after in zip(found, found[1:]):
        if before[0] == after[0]:
            faults.append(f"repeated: {antt_row(after)}")
        elif before[0] > after[0]:
            faults.append(f"out of order: {antt_row(after)}")
    if len(found) != 429:
        faults.append(f"{len(found)} rows, not 429")
    wanted_forms, found_forms = forms_of_rust(sys.argv[1]), forms_of_antt(sys.argv[3])
    for wanted_form, found_form in zip(wanted_forms, found_forms):
        if wanted_form != found_form:
            faults.append(f"form: {found_form}, in the original {wanted_form}")
    if len(found_forms) != 429:
        faults.append(f"{len(found_forms)} forms, not 429")
    if faults:
        print(*faults, sep="\n")
        sys.exit(1)
    longest = max(len(spelling) for spelling, _ in found)
    total = sum(len(spelling) for spelling, _ in found)
    print(f"{len(found)} spellings as in the original, sorted, no repeats; {total} bytes, the longest {longest}")
    drawn = sum(form is not None for _, form in found_forms)
    print(f"{drawn} of them with a display form, as in the original")


main()
