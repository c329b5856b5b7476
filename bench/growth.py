#!/usr/bin/env python3
"""Looks for growths whose answer nobody reads, in the sources of all crates that are no tests.

    growth.py

A call that asks for memory answers whether it was given. A function whose signature has no such answer
takes no memory, unless it lets one go unread: that is what is looked for. Prints each place, and ends with
1 where there is one.
"""
import re
import sys
from pathlib import Path

CRATES = Path(__file__).resolve().parent.parent / 'crates'
GROWTH = re.compile(r'::with_capacity\(|\.reserve\w*\(|\.to_vec\(|::from_str\(|\bvec!\[in|\.push\w*\(|'
                    r'\.extend\w*\(|\.clone\(|::with_room\(|\.copied\(alloc|::from_array\(|\.insert\(|'
                    r'\.repeat\(alloc|\.resize\(|\bformat!\(in|Box::new\(')
READ = re.compile(r'\?|\.(?:is_err|is_ok|map|map_err|ok|and_then|err|unwrap)\(')
PASSED = re.compile(r'\b(?:if|while) let Ok\([^=]*=([^{]*)\{|'
                    r'\bmatch ([^{;]*)\{(?:[^{}]|\{\})*?\b(?:Err\(_\)|_) => (?:\{\}|\(\))')
STATEMENT = re.compile(r'(?:^|[;{}])\s*((?:let\s+(?:mut\s+)?(\w+)\s*(?::[^=;]*)?=\s*)?[^;{}]*);', re.S)


def code_of(text):
    """The text without comments and ghost items, and with commas inside of brackets."""
    text = re.sub(r'//[^\n]*', '', text)
    text = re.sub(r'^\s*ghost (?:use|\w+ ?[=:]).*?;', lambda found: '\n' * found[0].count('\n'), text,
                  flags=re.S | re.M)
    return re.sub(r'\[[^\[\]{}]*\]', lambda found: found[0].replace(';', ','), text)


def unread(code):
    """The statements that grow something and leave its answer, or go on where it is a refusal."""
    for found in PASSED.finditer(code):
        if GROWTH.search(found.group(1) or found.group(2)):
            yield code.count('\n', 0, found.start()) + 1, ' '.join(found.group(0).split())
    for found in STATEMENT.finditer(code):
        statement, name = found.group(1), found.group(2)
        if not GROWTH.search(statement) or READ.search(statement) or statement.startswith('return'):
            continue
        rest = re.sub(rf'drop\(\s*{name}\s*\)', '', code[found.end():]) if name else ''
        if name is None or name.startswith('_') or not re.search(rf'\b{name}\b', rest):
            yield code.count('\n', 0, found.start(1)) + 1, ' '.join(statement.split())


def main():
    places = [(path, line, statement)
              for path in sorted(CRATES.glob('*/src/**/*.rt'))
              if not path.relative_to(CRATES).parts[0].endswith('_tests')
              for line, statement in unread(code_of(path.read_text(encoding='utf-8')))]
    for path, line, statement in places:
        print(f'{path.relative_to(CRATES)}:{line}: {statement}')
    print(f'{len(places)} growths whose answer is not read')
    sys.exit(bool(places))


if __name__ == '__main__':
    main()
