#!/usr/bin/env python3
"""Functions of crates/*/src whose bodies are the same text once each name is replaced by the number of its first place: twins.

tools/twins.py [LEAST]: bodies of at least LEAST lines (4). A line for each pair or more, with the functions' files.
"""
import collections
import glob
import re
import sys

WORDS = set('fn let mut if else match for in while return true false as loop break continue usize u8 u32 u64 i32 bool self Self Some None Ok Err'.split())


def functions(path):
    text = re.sub(r'//.*', '', open(path).read())
    for found in re.finditer(r'fn ([a-z_0-9]+)[^{;]*?(?:ensures \{.*?\}\s*\n)?\{\n', text, re.S):
        depth, end = 1, found.end()
        while depth and end < len(text):
            depth += {'{': 1, '}': -1}.get(text[end], 0)
            end += 1
        yield found.group(1), text[found.end():end]


def shape(body):
    names = {}
    return re.sub(r'b?"[^"]*"|[A-Za-z_][A-Za-z_0-9]*|[0-9]+', lambda m: m.group() if m.group() in WORDS else '%%%d' % names.setdefault(m.group(), len(names)), re.sub(r'\s+', ' ', body))


def main():
    least = int(sys.argv[1]) if len(sys.argv) > 1 else 4
    same = collections.defaultdict(list)
    for path in sorted(glob.glob('crates/*/src/*.rt')):
        if '/vectors/' in path or '/c_interface_c/' in path:
            continue
        for name, body in functions(path):
            if body.count('\n') >= least:
                same[shape(body)].append('%s:%s' % (path[7:-3].replace('/src/', '::'), name))
    for names in same.values():
        if len(names) > 1:
            print(len(names), ' '.join(names))


main()
