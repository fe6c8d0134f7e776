#!/usr/bin/env python3
"""Lists the functions under crates/*/src whose bodies are the same but for names and numbers.

usage: tools/twins.py [TOKENS]     functions of at least so many tokens, 25 where no number is given
"""
import collections
import glob
import re
import sys

KEPT = set("if else while for in let mut return match fn usize i64 u8 u64 bool as true false loop Some None Ok Err pub".split())


def functions(path):
    """The functions of a file, each with its tokens from its name to its closing brace, without its clauses."""
    text = open(path, encoding="utf-8").read()
    for m in re.finditer(r'^( *)(?:pub(?:\(crate\))? )?(?:extern "C" )?fn (\w+)', text, re.M):
        end = re.search(r"^%s\}" % m.group(1), text[m.end():], re.M)
        if end:
            body = text[m.end():m.end() + end.end()]
            clauses = r"^\s+(?:requires|ensures)\b.*?(?=^%s\{|^\s+(?:requires|ensures)\b)" % m.group(1)
            yield m.group(2), re.findall(r'[A-Za-z_]\w*|\d+|"[^"]*"|[^\s\w]', re.sub(clauses, "", body, flags=re.M | re.S))


def shape(tokens):
    """The tokens with names by the order in which they come, and every number and text as one."""
    names, out = {}, []
    for t in tokens:
        if t in KEPT:
            out.append(t)
        elif re.match(r"[A-Za-z_]", t):
            out.append(names.setdefault(t, "name %d" % len(names)))
        else:
            out.append("number" if re.match(r'\d|"', t) else t)
    return tuple(out)


def main():
    least = int(sys.argv[1]) if len(sys.argv) > 1 else 25
    alike = collections.defaultdict(list)
    for path in sorted(glob.glob("crates/*/src/**/*.rt", recursive=True)):
        for name, tokens in functions(path):
            if len(tokens) >= least:
                alike[shape(tokens)].append("%s::%s" % (path.split("/")[1], name))
    groups = [(len(s), names) for s, names in alike.items() if len(names) > 1]
    for tokens, names in sorted(groups, reverse=True):
        print(tokens, *names)
    print(len(groups), "groups,", sum(len(names) for _, names in groups), "functions")


main()
