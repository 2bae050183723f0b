"""What the scripts of the pictures share: compositions, the text of a project, and its picture."""

import json
import subprocess
import sys
from pathlib import Path

TOP = Path(__file__).resolve().parent.parent


def composition(width, height, layers, frames=1):
    return {"width": width, "height": height, "frame": [1, 24], "frames": frames, "layers": layers}


def comp_text(comp):
    head = {name: value for name, value in comp.items() if name != "layers"}
    layers = ",\n".join("    " + json.dumps(it) for it in comp["layers"])
    return f'  {json.dumps(head)[:-1]}, "layers": [\n{layers}\n  ]}}'


def text(value):
    """The project's text, a layer a line."""
    head = json.dumps({**value, "comps": []})[:-2]
    return head + "\n" + ",\n".join(comp_text(it) for it in value["comps"]) + "\n]}\n"


def draw(project, picture):
    """Has the program draw a project's file, and writes the picture."""
    frames = subprocess.run([TOP / "afhost"], input=project.read_bytes(), stdout=subprocess.PIPE, check=True).stdout
    subprocess.run([TOP / "tools" / "afr", "png", "-", "--out", picture], input=frames, check=True)


def run(name, value):
    """Writes the project and its picture, which have this name; with the word --project it only prints the project."""
    if sys.argv[1:] == ["--project"]:
        print(text(value), end="")
        return
    project = TOP / "examples" / f"{name}.json"
    project.write_text(text(value))
    draw(project, TOP / "docs" / f"{name}.png")
