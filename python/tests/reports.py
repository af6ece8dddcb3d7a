"""Reports for tests, as far as they are read: every read of a sample is as long as the others, and
all of its bases have one score."""

from tibzharuk.report import reading


def reads(number, length=100, score=35, places=True):
    """What is counted of so many reads."""
    bases = number * length
    gc = number * (length // 2)
    row = [[length, number]] if number else []
    found = {
        "reads": number, "bases": bases, "q20_bases": bases * (score >= 20),
        "q30_bases": bases * (score >= 30), "score_sum": bases * score, "gc_bases": gc,
        "n_bases": 0, "shortest": length if number else None,
        "longest": length if number else None, "lengths": row,
        "mean_scores": [[score, number]] if number else [],
    }
    if places:
        each = {"bases": number, "score_sum": number * score, "q30_bases": number * (score >= 30),
                "a": number, "c": 0, "g": 0, "t": 0, "n": 0}
        found["positions"] = {name: [count] * length if number else []
                              for name, count in each.items()}
    return found


def adapters(found=10, removed=50, pairs=100, removed_pairs=0):
    """What cutadapt did on both sides; None if it looked for nothing."""
    side = {"pairs_with_adapter": found, "bases_removed": removed}
    return {"program": "cutadapt", "version": "4.2", "options": ["-a", "ACGT"], "pairs_read": pairs,
            "pairs_removed": removed_pairs, "forward": side, "reverse": dict(side)}


def report(pairs=100, kept=90, length=100, left=90, scores=(35, 36), places=True, name="r", **more):
    """A report of so many pairs of which some are kept; the others are dropped."""
    side = {
        "before": reads(pairs, length, scores[0], places),
        "paired": reads(kept, left, scores[1], places),
        "unpaired": reads(0, left, scores[1], places),
        "removed_bases": {"front": 0, "behind": kept * (length - left)},
    }
    done = {"shortened": 0, "dropped": pairs - kept}
    found = {
        "schema": 2, "program": "fq_prog", "version": "2.0.0", "command": "PE",
        "encoding": "sanger", "name_check": True, "outcome": "finished", "fault": None,
        "inputs": {"forward": f"{name}_1.fq", "reverse": f"{name}_2.fq"},
        "outputs": {"forward_paired": f"{name}.fq"},
        "pairs": {"input": pairs, "both_surviving": kept, "forward_only_surviving": 0,
                  "reverse_only_surviving": 0, "dropped": pairs - kept},
        "reads": {"forward": side, "reverse": side},
        "steps": [{"step": "MINLEN:36", "forward": done, "reverse": done}],
        **more,
    }
    reading.check(found)
    return found
