"""What VS Code's grammar takes each word of a text for: the first rule of those that match earliest, and what ends it. `scopes.py GRAMMAR TEXT`"""
import json
import re
import sys

rules, seen, end = json.load(open(sys.argv[1], encoding="utf-8"))["patterns"], [], ""
for line in sys.argv[2].splitlines():
    at = 0
    while True:
        if end:
            found = re.compile(end).search(line, at)
            end = "" if found else end
        else:
            hits = [(re.compile(it.get("match") or it["begin"]).search(line, at), it) for it in rules]
            found, rule = min(((hit, it) for hit, it in hits if hit), key=lambda it: it[0].start(), default=(None, None))
            if found and rule:
                seen.append(f"{rule.get('name', 'entity.x').split('.')[0]}:{found[0].split()[-1]}")
                end = rule.get("end", "")
        if not found:
            break
        at = found.end()
print(*seen)
