"""Prints the names and numbers of the module, which bindings/check compares with the header's."""
import re

from kovshenul import CAUSES, RULES, Refused, Rights, journal, outlook


def words_of(kind):
    """The name of a class, as the header spells it."""
    return re.sub(r"(?<!^)([A-Z])", r"_\1", kind.__name__).upper()


for right in Rights:
    print("right", right.name, int(right))
for number, rule in enumerate(RULES):
    print("rule", rule.upper(), number)
for number, cause in enumerate(CAUSES):
    print("cause", cause.upper().replace(" ", "_"), number)
for number, law in enumerate(journal.LAWS):
    print("law", words_of(law), number)
for number, deed in journal.DEEDS.items():
    print("deed", words_of(deed), number)
for number, reply in journal.REPLIES.items():
    print("reply", words_of(reply), number)
for number, answer in outlook.OUTLOOKS.items():
    print("outlook", words_of(answer), number)
for kind in sorted(Refused.__subclasses__(), key=words_of):
    print("status", words_of(kind), kind.status)
