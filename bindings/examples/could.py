"""A host asks before it hands a right on: could the plug-in come to read the guarded document then?"""
from kovshenul import GRANT, READ, TAKE, Cell, Store, journal, outlook

HOST, PLUGIN = 0, 1

with Store([Cell(0), Cell(0)]) as store:
    folder = store.create(HOST, READ | TAKE | GRANT, Cell(7))
    guarded = store.create(HOST, READ, Cell(7))
    store.grant(HOST, folder, guarded, READ)
    for right in (READ, TAKE):
        answer = store.could(PLUGIN, READ, guarded, silent=[HOST], as_if=[(PLUGIN, folder, right)])
        if isinstance(answer, outlook.Never):
            print("never")
        if isinstance(answer, outlook.Could):
            print("could")
            for turn in answer.turns:
                if isinstance(turn.deed, journal.Take):
                    print(f"{turn.worker} takes {turn.deed.target} from {turn.deed.via}")
