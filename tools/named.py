#!/usr/bin/env python3
"""Says in B/S notation the rule that goes by a name.

    named.py NAME

Ends with 1, and prints nothing, where no such name is known. The names are those of the LifeWiki's list of Life-like rules that tools/pictures.py knows, with or
without blanks and in any letters. `./lls` calls this.
"""
import ending
from pictures import NAMED_RULES, rule_of


def main():
    (name,) = ending.words(__doc__, "NAME")
    rule, _ = rule_of(name)
    if rule not in NAMED_RULES.values():
        return 1
    print(rule)
    return 0


if __name__ == "__main__":
    ending.run(main, __doc__)
