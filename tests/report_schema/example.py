"""Takes the example of docs/FORMAT.md apart: the inputs that the text names to inputs/shown1.fq and
inputs/shown2.fq, the steps to `steps`, one in a line, and docs/report.example.json to `shown`."""

import json
import os
import re

TREE = os.path.dirname(os.path.dirname(os.path.dirname(os.path.abspath(__file__))))
EXAMPLE = re.compile(r"\n\n\[report\.example\.json\]\S+ is the report of two pairs (.*?)(?:\n\n|\Z)", re.DOTALL)


def main():
    with open(os.path.join(TREE, "docs", "FORMAT.md"), encoding="utf-8") as file:
        part = file.read().split("\n## Report\n")[1].split("\n## ")[0]
    words = EXAMPLE.search(part).group(1)
    with open(os.path.join(TREE, "docs", "report.example.json"), encoding="utf-8") as file:
        shown = json.load(file)
    steps, *texts = re.findall(r"`([^`]+)`", words)
    for side in (1, 2):
        reads = texts[2 * side - 2:2 * side], texts[2 * side + 2:2 * side + 4]
        with open(f"inputs/shown{side}.fq", "w", encoding="utf-8") as file:
            for number, (bases, scores) in enumerate(reads):
                file.write(f"@p{number}\n{bases}\n+\n{scores}\n")
    with open("steps", "w", encoding="utf-8") as file:
        file.writelines(f"{step}\n" for step in steps.split())
    with open("shown", "w", encoding="utf-8") as file:
        json.dump(shown, file)


main()
