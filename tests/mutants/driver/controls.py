"""Whether the mutants of controls/ come out as it is known."""
from .mutant import controls
from .trying import Run
from .verdict import Outcome, try_group


def are_controls_right(run: Run) -> bool:
    """Whether each control comes out as expected. Mutants that aren't to be judged are tried
    alone."""
    alone = [[control] for control in controls() if control.wanted == Outcome.NOT_JUDGED.value]
    together = [control for control in controls() if [control] not in alone]
    is_right = True
    for verdict in (verdict for group in (together, *alone) for verdict in try_group(run.tree, run.check, group)):
        if verdict.outcome.value != verdict.mutant.wanted:
            print(f"mutants: {verdict.mutant.path}: '{verdict.outcome.value}', and has to be '{verdict.mutant.wanted}'")
            is_right = False
    return is_right
