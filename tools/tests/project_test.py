"""The schema of projects, beside what the host reads."""

import json
import shutil
import sys

from common import EXAMPLES, TOP, Case, host, ran


GONE = object()
COMP = ("comps", 0)
LAYER = ("comps", 0, "layers", 0)
SOLID = (*LAYER, "source", "solid")
KEY = [5, [0, 1], "hold"]
EMPTY = {"width": 1, "height": 1, "frame": [1, 24], "frames": 1, "layers": []}
POINT = {"source": {"solid": [1, 1, 0, 0, 0, 0]}}
CLIP = {"name": "a.afr", "width": 1, "height": 1, "depth": 8, "frame": [1, 24], "frames": 1}
NESTING = {**EMPTY, "layers": [{"source": {"comp": 1}}]}
MODES = """Normal Multiply Screen Darken Lighten Difference Exclusion Add Subtract LinearBurn HardLight Overlay LinearLight
    PinLight HardMix ColorDodge ColorBurn StencilAlpha SilhouetteAlpha StencilLuma SilhouetteLuma""".split()
MATTES = ["None", "Alpha", "AlphaInverted", "Luma", "LumaInverted"]
EFFECTS = (*LAYER, "effects")
SHARE, REACH, POSITION = (0, 10000), (-1024, 1024), (-32768, 32767)
# The least and the greatest value of each parameter of an effect.
RANGES = {
    "Invert": [(0, 3)],
    "Threshold": [SHARE],
    "ChannelShift": [(0, 4)] * 3,
    "ScaleOffset": [(0, 40000), (-10000, 10000)],
    "Tint": [SHARE] * 7,
    "PaletteMap": [],
    "Offset": [POSITION] * 2,
    "BoxBlur": [(0, 128)],
    "Mosaic": [(1, 1024)],
    "DropShadow": [REACH, REACH, *[SHARE] * 4],
    "Displace": [REACH] * 2,
    "Echo": [(1, 8), (1, 100), SHARE],
    "PosterizeTime": [(1, 1000)],
    "FrameDifference": [(1, 100)],
    "TimeMean": [(0, 4)],
    "AutoLevels": [(0, 4999)],
    "Equalize": [],
    "Deflicker": [(0, 4)],
}


def effect(name, params, **more):
    """An effect that names its own layer and has a palette of one entry, where it has to."""
    needed = {"Displace": {"layers": [0]}, "PaletteMap": {"sequence": "00fF7f"}}.get(name, {})
    return {"effect": name, "params": params, **needed, **more}


def at_ends(name):
    """The effect with the least and with the greatest values."""
    return [effect(name, [ends[side] for ends in RANGES[name]]) for side in (0, 1)]


def outside(name):
    """The effect with one parameter a step outside of its range, as a value and as a keyframe."""
    found = []
    for place, (least, most) in enumerate(RANGES[name]):
        for value in (least - 1, most + 1):
            for stream in (value, [[least, [0, 1], "linear"], [value, [1, 24], "hold"]]):
                params = [ends[0] for ends in RANGES[name]]
                found.append(effect(name, [*params[:place], stream, *params[place + 1 :]]))
    return found


def miscounted(name):
    """The effect with a parameter too few, where it has one, and too many, and with other layers than it has."""
    params = [ends[0] for ends in RANGES[name]]
    layers = [[], [0, 0]] if name == "Displace" else [[0]]
    return [
        *([effect(name, params[1:])] if params else []),
        effect(name, [*params, 1]),
        *[effect(name, params, layers=it) for it in layers],
    ]


def chain(effects):
    """Compositions of which each shows the next one: the first behind so many effects, and the others behind eight. The last one's rank
    is 1, those before it have 11, 21 and so on to 251, and the source in the first one has 252."""
    counts = [effects, *[8] * 25]
    layers = [{"source": {"comp": place + 1}, "effects": [effect("Invert", [0])] * count} for place, count in enumerate(counts)]
    return [*[{**EMPTY, "layers": [layer]} for layer in layers], EMPTY]


# What is changed in a project that fits, to what, and the rule of the host that is broken then.
BROKEN = [
    (("name",), "x", 2),
    (("version",), GONE, 3),
    (("version",), 2, 3),
    (("version",), "1", 3),
    (("depth",), GONE, 4),
    (("depth",), 10, 4),
    (("depth",), "16", 4),
    (("depth",), 0, 4),
    (("root",), GONE, 16),
    (("root",), -1, 16),
    (("root",), 64, 16),
    (("clips",), {}, 5),
    (("clips",), None, 5),
    (("clips",), ["a.afr"], 5),
    (("clips",), [{**CLIP, "name": f"{i}"} for i in range(65)], 5),
    (("clips",), [{**CLIP, "first": 0}], 5),
    (("clips",), [{"name": "a.afr"}], 5),
    *[(("clips",), [{**CLIP, "name": name}], 17) for name in ("", ".a", "../a", "a/b", "a b", "n" * 65, 1, None)],
    *[(("clips",), [{**CLIP, "width": side}], 19) for side in (0, 4097, "1")],
    *[(("clips",), [{**CLIP, "depth": depth}], 20) for depth in (0, 10, 264, "8", None)],
    *[(("clips",), [{**CLIP, "frames": frames}], 21) for frames in (0, 65537, "1")],
    (("clips",), [{**CLIP, "frame": [0, 24]}], 22),
    (("clips",), [{**CLIP, "frame": 1}], 15),
    (("comps",), GONE, 6),
    (("comps",), [], 6),
    (("comps",), {}, 6),
    (("comps",), [EMPTY] * 65, 6),
    (COMP, [], 6),
    ((*COMP, "name"), "x", 6),
    ((*COMP, "width"), GONE, 6),
    ((*COMP, "width"), 0, 19),
    ((*COMP, "width"), 4097, 19),
    ((*COMP, "height"), "2", 19),
    ((*COMP, "frames"), 0, 21),
    ((*COMP, "frames"), 65537, 21),
    ((*COMP, "frames"), 1.5, 1),
    ((*COMP, "frame"), [0, 24], 22),
    ((*COMP, "frame"), [1, 0], 15),
    ((*COMP, "frame"), [1, 24, 1], 15),
    ((*COMP, "frame"), "1/24", 15),
    ((*COMP, "layers"), GONE, 6),
    ((*COMP, "layers"), {}, 7),
    ((*COMP, "layers"), [POINT] * 129, 7),
    (LAYER, {}, 7),
    ((*LAYER, "name"), "x", 7),
    (EFFECTS, {}, 10),
    (EFFECTS, None, 10),
    (EFFECTS, [{}], 10),
    (EFFECTS, [effect("Invert", [0])] * 9, 10),
    (EFFECTS, [{**effect("Invert", [0]), "name": "x"}], 10),
    *[(EFFECTS, [effect(name, [0])], 11) for name in ("Foo", "invert", "", 0, None)],
    *[(EFFECTS, [it], 13) for name in RANGES for it in miscounted(name)],
    (EFFECTS, [{"effect": "Invert"}], 13),
    (EFFECTS, [effect("Invert", {})], 13),
    (EFFECTS, [effect("Displace", [0, 0], layers=["0"])], 13),
    (EFFECTS, [effect("BoxBlur", ["1"])], 14),
    (EFFECTS, [effect("BoxBlur", [[[1, [0, 0], "hold"]]])], 15),
    *[(EFFECTS, [it], 37) for name in RANGES for it in outside(name)],
    (EFFECTS, [effect("Invert", [0]), effect("Mosaic", [0])], 37),
    *[(EFFECTS, [effect("Displace", [0, 0], layers=[index])], 38) for index in (-1, 128)],
    *[(EFFECTS, [effect("PaletteMap", [], sequence=it)], 39) for it in ("", "00", "00ff7g", "00ff7f0", "00" * 3 * 257, 0, None)],
    (EFFECTS, [{"effect": "PaletteMap"}], 39),
    *[(EFFECTS, [effect(name, [ends[0] for ends in RANGES[name]], sequence="00")], 39) for name in RANGES if name != "PaletteMap"],
    ((*LAYER, "mode"), "normal", 31),
    ((*LAYER, "mode"), "Dissolve", 31),
    ((*LAYER, "mode"), "", 31),
    ((*LAYER, "mode"), 0, 31),
    ((*LAYER, "mode"), None, 31),
    ((*LAYER, "matte"), "none", 32),
    ((*LAYER, "matte"), "InvertedAlpha", 32),
    ((*LAYER, "matte"), 0, 32),
    ((*LAYER, "matte"), None, 32),
    ((*LAYER, "matte"), ["None"], 32),
    *[((*LAYER, "matte"), matte, 33) for matte in MATTES[1:]],
    ((*COMP, "layers"), [{**POINT, "matte": "Luma"}, POINT], 33),
    ((*LAYER, "source"), {}, 9),
    ((*LAYER, "source"), {"clip": "0"}, 28),
    ((*LAYER, "source"), {"clip": -1}, 28),
    ((*LAYER, "source"), {"clip": 64}, 28),
    ((*LAYER, "source"), {"comp": None}, 29),
    ((*LAYER, "source"), {"comp": 64}, 29),
    ((*LAYER, "source"), {"clip": 0, "comp": 0}, 9),
    ((*LAYER, "source"), {"solid": [1, 1, 0, 0, 0, 0], "still": 1}, 9),
    (SOLID, [1, 1, 255, 0, 0], 27),
    (SOLID, [1, 1, 255, 0, 0, 0, 0], 27),
    (SOLID, [1, 1, 256, 0, 0, 0], 27),
    (SOLID, [1, 1, 255, -1, 0, 0], 27),
    (SOLID, [0, 1, 255, 0, 0, 0], 27),
    (SOLID, [1, 4097, 255, 0, 0, 0], 27),
    (SOLID, [1, 1, 32768, 0, 0, 0], 27),
    ((*LAYER, "start"), [1], 15),
    ((*LAYER, "start"), [2147483648, 1], 15),
    ((*LAYER, "in"), [1, -1], 15),
    ((*LAYER, "in"), [1, 2147483648], 25),
    ((*LAYER, "out"), "end", 15),
    ((*LAYER, "out"), None, 15),
    ((*LAYER, "opacity"), -1, 36),
    ((*LAYER, "opacity"), 10001, 36),
    ((*LAYER, "opacity"), "half", 14),
    ((*LAYER, "opacity"), [], 14),
    ((*LAYER, "opacity"), [[5, [0, 1]]], 14),
    ((*LAYER, "opacity"), [[5, [0, 1], "smooth"]], 14),
    ((*LAYER, "opacity"), [["5", [0, 1], "hold"]], 14),
    ((*LAYER, "opacity"), [[5, 0, "hold"]], 15),
    ((*LAYER, "opacity"), [[5, [0, 1], "hold", 1]], 14),
    ((*LAYER, "opacity"), [KEY, [10001, [1, 1], "ease"]], 36),
    ((*LAYER, "x"), 32768, 36),
    ((*LAYER, "x"), [[-32769, [0, 1], "linear"]], 36),
    ((*LAYER, "x"), {"value": 1}, 14),
    ((*LAYER, "y"), -32769, 36),
    ((*LAYER, "y"), [KEY] * 4097, 14),
]
# The same in a project of depth 16.
BROKEN_AT_16 = [
    (SOLID, [1, 1, 32769, 0, 0, 0], 27),
    (SOLID, [1, 1, 32768, 0, 0, 32769], 27),
    (SOLID, [1, 1, 65535, 0, 0, 0], 27),
    (SOLID, [1, 1, -1, 0, 0, 0], 27),
    ((*LAYER, "mode"), "Lighter", 31),
    (EFFECTS, [effect("Mosaic", [1025])], 37),
    ((*LAYER, "matte"), "Alpha", 33),
]
# What the host refuses and a schema cannot say.
UNSAID = [
    (SOLID, [1, 1, 100, 101, 0, 0], 27),
    (SOLID, [4096, 2161, 0, 0, 0, 0], 27),
    (("clips",), [CLIP, CLIP], 18),
    (("clips",), [{**CLIP, "width": 4096, "height": 2161}], 19),
    (("clips",), [{**CLIP, "width": 4096, "height": 2160, "frames": 61}], 26),
    (("root",), 1, 16),
    ((*LAYER, "source"), {"clip": 0}, 28),
    ((*LAYER, "source"), {"comp": 1}, 29),
    ((*LAYER, "source"), {"comp": 0}, 30),
    (("comps",), [NESTING, {**EMPTY, "layers": [{"source": {"comp": 0}}]}], 30),
    ((*LAYER, "in"), [1, 1], 34),
    ((*LAYER, "opacity"), [KEY, KEY], 35),
    (EFFECTS, [effect("BoxBlur", [[KEY, KEY]])], 35),
    (EFFECTS, [effect("Displace", [0, 0], layers=[1])], 38),
    (("comps",), chain(5), 40),
    ((*COMP, "layers"), [POINT, {**POINT, "matte": "Alpha"}, {**POINT, "matte": "Luma"}], 33),
]
FITTING = [
    ((*LAYER, "opacity"), [KEY, [10000, [1, 24], "ease"], [0, [1, 12], "linear"]]),
    ((*LAYER, "x"), [[-32768, [-1, 24], "linear"], [32767, [36000, 1], "hold"]]),
    ((*LAYER, "y"), -32768),
    ((*LAYER, "in"), [-1, 24]),
    ((*LAYER, "out"), [0, 1]),
    ((*LAYER, "start"), [-5, 24]),
    (EFFECTS, []),
    *[(EFFECTS, [it]) for name in RANGES for it in at_ends(name)],
    (EFFECTS, [effect("BoxBlur", [[[0, [0, 1], "ease"], [128, [1, 24], "hold"]]]), effect("Invert", [0], layers=[], sequence="")]),
    (EFFECTS, [effect("Displace", [1, 1])] * 8),
    (("comps",), chain(4)),
    (EFFECTS, [effect("PaletteMap", [], sequence="00" * 3 * 256), {"effect": "PaletteMap", "sequence": "abCDef"}]),
    ((*COMP, "layers"), []),
    (("clips",), []),
    (("comps",), [NESTING, EMPTY]),
    (("comps",), [EMPTY] * 64),
    (SOLID, [4096, 2160, 0, 0, 0, 0]),
    (SOLID, [1, 1, 255, 255, 255, 255]),
    *[((*LAYER, "mode"), mode) for mode in MODES],
    ((*LAYER, "matte"), "None"),
    *[((*COMP, "layers"), [POINT, {**POINT, "matte": matte, "mode": "Add"}]) for matte in MATTES],
    ((*COMP, "layers"), [POINT, {**POINT, "matte": "Luma"}, POINT, {**POINT, "matte": "Luma"}]),
]
FITTING_AT_16 = [
    (SOLID, [1, 1, 32768, 32768, 0, 1]),
    (SOLID, [1, 1, 256, 256, 256, 256]),
    ((*LAYER, "mode"), "SilhouetteLuma"),
    *[(EFFECTS, [it]) for name in RANGES for it in at_ends(name)],
    ((*COMP, "layers"), [POINT, {**POINT, "matte": "AlphaInverted"}]),
]
VALIDATOR = """
import json, jsonschema, sys
schema, values = json.load(sys.stdin)
jsonschema.Draft202012Validator.check_schema(schema)
check = jsonschema.Draft202012Validator(schema)
json.dump([check.is_valid(value) for value in values], sys.stdout)
"""


def changed(keys, value, depth=8):
    """The smallest project, of this depth, with one member changed or gone."""
    project = json.loads((TOP / "examples" / "two_pixels.json").read_bytes())
    project["depth"] = depth
    *above, last = keys
    place = project
    for key in above:
        place = place[key]
    if value is GONE:
        del place[last]
    else:
        place[last] = value
    return project


def fitting():
    """The projects of the tables that the host takes."""
    return [changed(*row) for row in FITTING] + [changed(*row, depth=16) for row in FITTING_AT_16]


def broken():
    """The projects of the tables that do not fit, each with its broken rule."""
    at_8 = [(changed(keys, value), rule) for keys, value, rule in BROKEN]
    return at_8 + [(changed(keys, value, depth=16), rule) for keys, value, rule in BROKEN_AT_16]


def unsaid():
    """The projects that fit and that the host refuses, each with its broken rule."""
    return [(changed(keys, value), rule) for keys, value, rule in UNSAID]


def validating_python():
    """A Python that has jsonschema with the form of 2020-12."""
    for python in (sys.executable, "/usr/bin/python3"):
        if shutil.which(python) and ran(python, "-c", "from jsonschema import Draft202012Validator").returncode == 0:
            return python
    return None


class Schema(Case):
    def valid(self, values):
        """Whether each value fits the schema."""
        python = validating_python()
        if not python:
            self.skipTest("missing here: jsonschema")
        schema = json.loads((TOP / "docs" / "project.schema.json").read_bytes())
        return json.loads(self.well(python, "-c", VALIDATOR, given=json.dumps([schema, values]).encode()))

    def test_every_example_fits(self):
        self.assertEqual(self.valid([json.loads(path.read_bytes()) for path in EXAMPLES]), [True] * len(EXAMPLES))

    def test_what_the_host_takes_fits(self):
        projects = fitting()
        fits = self.valid(projects)
        self.assertEqual([it for it, is_valid in zip(projects, fits) if not is_valid], [])

    def test_broken_projects_do_not_fit(self):
        fits = self.valid([project for project, _ in broken()])
        self.assertEqual([it for it, is_valid in zip(broken(), fits) if is_valid], [])

    def test_what_a_schema_cannot_say_fits(self):
        self.assertEqual(self.valid([project for project, _ in unsaid()]), [True] * len(UNSAID))

    def test_the_host_reads_what_the_tables_say(self):
        program = host()
        if not program:
            self.skipTest("no program is built, and no release fits")
        for project in fitting():
            with self.subTest(project=project):
                self.well(program, given=json.dumps(project).encode())
        for project, rule in broken() + unsaid():
            with self.subTest(project=project, rule=rule):
                given = json.dumps(project).encode()
                done = self.refused(program, given=given, status=3)
                self.assertEqual(done.stderr.decode(), f"afhost: project rule {rule}\n")

    def test_the_names_are_those_of_the_schema(self):
        schema = json.loads((TOP / "docs" / "project.schema.json").read_bytes())
        self.assertEqual(schema["$defs"]["mode"]["enum"], MODES)
        self.assertEqual(schema["$defs"]["matte"]["enum"], MATTES)
        self.assertEqual(schema["$defs"]["effect"]["properties"]["effect"]["enum"], list(RANGES))

    def test_each_member_has_a_sentence(self):
        schema = json.loads((TOP / "docs" / "project.schema.json").read_bytes())
        for part in [schema, *schema["$defs"].values()]:
            for name, member in part.get("properties", {}).items():
                self.assertTrue(member["description"].endswith("."), name)
